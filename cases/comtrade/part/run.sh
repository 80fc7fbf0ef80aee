# windows and channels of what is shown, printed as a table and converted: rows, values and instants against a reader of a few lines in
# another language where that is there; what words can't mean
exec 2>&1
folder=$(mktemp -d)
trap 'rm -r "$folder"' EXIT
example=../examples/earth-fault/rec1
"$comtrade" csv --from -0.3 --to 0.3 --channels 'UA,I*,D1' $example | tr -d '\r'
"$comtrade" csv --from "row 1199" --channels 2,d4 $example | tr -d '\r'
"$comtrade" csv --from 2024-07-01T10:30:00.5503 --channels ua $example | tr -d '\r'
"$comtrade" show --from 119 --to 124 --changed $example | tail -n 5
"$comtrade" csv --to "row 1" --channels IA --secondary $example | tr -d '\r'
"$comtrade" csv --separator ';' --decimal , --from 0 --to 0.3 --channels UA $example | tr -d '\r'
"$comtrade" csv --separator tab --to "row 1" --channels 1 --from "row 1" $example | tr -d '\r' | tr '\t' '|'
"$comtrade" csv --separator , --decimal , $example
echo "status $?"
# a part written as a record of its own says the same rows at the same instants, and reads back
"$comtrade" convert --kind binary --from 0 --to 20 --channels 'I*,B*,Earth*,Trip' $example "$folder/part"
"$comtrade" check "$folder/part" | sed "s|$folder/||g"
"$comtrade" csv --from 0 --to 20 --channels 'I*,B*,Earth*,Trip' $example | cut -d, -f2- > "$folder/of-whole"
"$comtrade" csv "$folder/part" | cut -d, -f2- | cmp - "$folder/of-whole" && echo same
if command -v python3 > /dev/null; then
    python3 - $example <<'PYTHON' > "$folder/wanted"
import sys
sys.path.insert(0, "files")
from reader import Record
record = Record(sys.argv[1])
width = 2 + len(record.analog)
for row, since in zip(record.rows, record.since):
    if 0 <= since <= 20_000_000:
        currents = [i for i, channel in enumerate(record.analog) if channel[1].startswith("I")]
        values = [f"{int(row[2 + i]) * float(record.analog[i][5]):.1f}".removesuffix(".0") for i in currents]
        ms = f"{since / 1e6:.6f}".rstrip("0").rstrip(".")
        print(",".join([str(record.at(since).isoformat(" ", "microseconds")), ms, *values, *row[width:]]))
PYTHON
    tail -n +2 "$folder/of-whole" | tr -d '\r' | sed 's/,-0,/,0,/g' | cmp - "$folder/wanted" && echo same
else
    echo same
fi
for words in "--from noon" "--from 500" "--from 1 --to 0" "--channels UA,UX" "--primary --secondary" "--channels UA,9"; do
    "$comtrade" show $words $example
    echo "status $?"
done
