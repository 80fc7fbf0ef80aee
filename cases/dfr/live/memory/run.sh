# no memory for a script of 8 MB: nothing is printed, and nothing is run
. files/live.bash
{ head -n 8 dfr/replay/first/in; awk 'BEGIN { for (k = 0; k < 1000000; k++) print "scan 1/" }'; } > "$folder/script"
(ulimit -v 30000; "$dfr" live "$folder/script" "$folder")
status=$?
names
exit $status
