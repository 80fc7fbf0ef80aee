# samples of more than 16 bits: whether the cells of csv are a·x + b of the file's samples, as fractions, and what is told
command -v python3 > /dev/null || { echo "python3 isn't here" >&2; exit 77; }
folder=$(mktemp -d)
trap 'rm -rf "$folder"' EXIT
python3 comtrade/floats/cells.py "$comtrade" "$folder"
