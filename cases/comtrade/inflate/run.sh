# compressed records, sound and damaged: csv prints of them what zlib says (bench/inflate tries more of them)
command -v python3 > /dev/null || { echo "python3 isn't here" >&2; exit 77; }
exec 2>&1
python3 ../bench/inflate/run.py "$comtrade" --quick | sed 's/ streams:.*/ streams/'
