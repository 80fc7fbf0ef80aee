# a data file of just as many bytes as are read, and a configuration of one more
big=$(mktemp)
trap 'rm -f "$big"' EXIT
{ cat files/first.dat; head -c 16777163 /dev/zero; } > "$big"
"$dfr" read files/first.cfg "$big"
echo "$?"
{ cat files/first.cfg; head -c 16777075 /dev/zero; } > "$big"
"$dfr" read "$big" files/first.dat
echo "$?"
