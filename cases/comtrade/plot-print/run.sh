# --print draws the same picture in black and grey, with a line style for each phase that needs no browser; nothing else differs
command -v python3 > /dev/null || { echo "python3 isn't here" >&2; exit 77; }
exec 2>&1
folder=$(mktemp -d)
trap 'rm -r "$folder"' EXIT
record=../examples/earth-fault/rec1
"$comtrade" plot "$record" > "$folder/screen.svg"
"$comtrade" plot --print "$record" > "$folder/paper.svg"
"$comtrade" compare "$record" ../examples/lost-scans/rec1 > "$folder/both-screen.svg"
"$comtrade" compare --print "$record" ../examples/lost-scans/rec1 > "$folder/both-paper.svg"
python3 comtrade/plot-print/check.py "$folder"
