# a file of one byte more than is read
big=$(mktemp)
head -c 16777217 /dev/zero > "$big"
"$dfr" read files/first.cfg "$big"
ended=$?
rm -f "$big"
exit "$ended"
