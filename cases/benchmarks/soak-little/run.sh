# recorders in threads by chance, each judged by the definitions of the recorder: 40 runs of those of bench/soak, eleven of them of
# `run_live` with a feed and a sink that may fail. Skipped where python3 isn't there
exec 2>&1
command -v python3 > /dev/null || { echo "python3 isn't here" >&2; exit 77; }
../bench/soak --seeds 1 40
