# the file with gaps; a name with quotation marks; the example, whose rows are worked out here from its data file alone
"$comtrade" csv files/gaps.cfg files/gaps.dat
folder=$(mktemp -d)
trap 'rm -r "$folder"' EXIT
sed '3s/,IA,/,"I" a,/; 3s/,A,1,/,"A",1,/' files/first.cfg > "$folder/cfg"
"$comtrade" csv "$folder/cfg" - < files/first.dat
example=../examples/earth-fault/rec1
"$comtrade" csv $example.cfg $example.dat > "$folder/csv"
head -n 2 "$folder/csv"
tail -n 1 "$folder/csv"
awk -F, '
    function short(text) { if (text ~ /\./) { sub(/0+$/, "", text); sub(/\.$/, "", text) } return text == "-0" ? "0" : text }
    /^[0-9]/ {
        sub(/\r$/, "")
        # 4,800 scans a second, in nanoseconds, rounded down
        nanos = int(($1 - 1) * 1000000000 / 4800)
        printf "%s,2024-07-01 10:30:00.%06d,%s", $1, 300625 + int((nanos + 500) / 1000), short(sprintf("%.6f", (nanos - 50000000) / 1000000))
        for (i = 3; i <= 6; i++) printf ",%s", short(sprintf("%.2f", $i / 100))
        for (i = 7; i <= 10; i++) printf ",%s", short(sprintf("%.1f", $i / 2))
        printf ",%s,%s,%s,%s\r\n", $11, $12, $13, $14
    }' $example.dat > "$folder/awk"
tail -n +2 "$folder/csv" | cmp - "$folder/awk" && echo same
