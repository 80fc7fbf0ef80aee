# twenty pairs after a storm, as docs/comtrade.md walks through them: which record, what happened in order, fault inception, phasors at a
# moment, a part of it for the report, a table for a spreadsheet. Skipped without python3, which makes the pairs
command -v python3 > /dev/null || { echo "python3 isn't here" >&2; exit 77; }
exec 2>&1
folder=$(mktemp -d)
trap 'rm -r "$folder"' EXIT
python3 ../examples/storm/make.py "$folder/storm"
cd "$folder"
"$comtrade" list storm
"$comtrade" events storm/storm12
"$comtrade" measure storm/storm12
"$comtrade" measure --at 60 storm/storm12
"$comtrade" convert --kind ascii --from -20 --to 80 --channels 'UB,IB,Trip,Breaker*' storm/storm12 report
"$comtrade" check report
"$comtrade" csv --separator ';' --decimal , --from -1 --to 1 --channels UB,IB,Pickup storm/storm12 | tr -d '\r'
