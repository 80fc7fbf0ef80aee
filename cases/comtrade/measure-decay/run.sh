# currents after an inception, whose dc part decays: their phasors are those that were written down, in the first cycle too; sines of other
# frequencies get no line, and so are measured as ever
command -v python3 > /dev/null || { echo "python3 isn't here" >&2; exit 77; }
exec 2>&1
folder=$(mktemp -d)
trap 'rm -r "$folder"' EXIT
python3 comtrade/measure-decay/records.py "$folder"
python3 comtrade/measure-decay/check.py "$comtrade" "$folder"
