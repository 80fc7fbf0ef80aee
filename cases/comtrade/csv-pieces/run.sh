# BINARY pairs of several MiB as CSV, which are read piece by piece: each row, and those of parts, as worked out here from the numbers
# that the data were made of; the memory stays below the data; a window of more than 512 MiB; and pairs that need a repair, or have
# spare bits or falling stamps, are read as before
folder=$(mktemp -d)
trap 'rm -r "$folder"' EXIT
python3 comtrade/csv-pieces/judge.py "$comtrade" "$folder"
