# a head of each type over data of another: the notes on samples are those of the data, and a·x + b is the sample of the data
command -v python3 > /dev/null || { echo "python3 isn't here" >&2; exit 77; }
folder=$(mktemp -d)
trap 'rm -rf "$folder"' EXIT
python3 import/found-type/pairs.py "$comtrade" "$folder"
