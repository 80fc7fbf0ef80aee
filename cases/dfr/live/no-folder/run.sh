# the folder isn't made
. files/live.bash
"$dfr" live dfr/replay/first/in "$folder/none"
status=$?
names
exit $status
