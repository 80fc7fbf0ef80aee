# what show, list, events, measure, plot, page and import print of a record, against the rows of csv,
# and these against a reader of the standard's layouts: 26 records by chance (bench/agreement has more)
command -v python3 > /dev/null || { echo "python3 isn't here" >&2; exit 77; }
exec 2>&1
python3 ../bench/agreement/run "$comtrade" --quick | sed 's/\(records\).*:/\1:/'
