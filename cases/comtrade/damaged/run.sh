# damaged files by chance are refused with a reason, or read as a reader of the standard's layouts reads
# them, or repairs are told; none takes ten times as long as the undamaged one (bench/damaged has more)
command -v python3 > /dev/null || { echo "python3 isn't here" >&2; exit 77; }
exec 2>&1
python3 ../bench/damaged/run "$comtrade" --quick | sed 's/\(damaged\), .*:/\1:/'
