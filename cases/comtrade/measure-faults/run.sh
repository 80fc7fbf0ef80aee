# faults whose times are known: two in one record, missing readings, units of currents, several rates, a frequency that drifts; a moment outside
# the record; the note on what a fit leaves. Skipped where python3 isn't there, which makes the records
exec 2>&1
command -v python3 > /dev/null || { echo "python3 isn't here" >&2; exit 77; }
folder=$(mktemp -d)
trap 'rm -r "$folder"' EXIT
python3 comtrade/measure-faults/records.py "$folder"
said() {
    echo "> measure $*"
    "$comtrade" measure "${@:1:$#-1}" "$folder/${!#}"
    echo "status $?"
}
said twice
said missing
said units
said rates
said drift
for at in 500 -200 -90 'row 900' 'row 1000' 'row 20' 630; do
    said --at "$at" --channels IB twice
done
said --at 'row 40' --channels 'on it' missing
said --from 0 --to 160 slow
said --at 100 slow
