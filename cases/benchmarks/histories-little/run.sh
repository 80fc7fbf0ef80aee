# detectors over 400 random histories, each bit judged by the definitions over whole lists in another language
command -v python3 > /dev/null || { echo "python3 isn't here" >&2; exit 77; }
work=$(mktemp -d)
trap 'rm -rf "$work"' EXIT
python3 ../bench/detectors.py make 400 7 > "$work/lines"
"$benchmarks" histories < "$work/lines" > "$work/bits" || echo "status $?"
python3 ../bench/detectors.py judge "$work/lines" "$work/bits"
