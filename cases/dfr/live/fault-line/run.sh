# a fault of a line comes before anything is run
. files/live.bash
{ cat dfr/replay/first/in; echo "scan x/"; } | "$dfr" live /dev/stdin "$folder"
status=$?
names
exit $status
