# no memory for a script of 8 MB: nothing is written
big=$(mktemp)
trap 'rm -f "$big"' EXIT
{ head -n 8 dfr/replay/first/in; awk 'BEGIN { for (k = 0; k < 1000000; k++) print "scan 1/" }'; } > "$big"
(ulimit -v 30000; "$dfr" < "$big")
