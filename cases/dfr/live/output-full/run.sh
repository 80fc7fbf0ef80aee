# standard output takes no byte: the files are there all the same
. files/live.bash
"$dfr" live dfr/replay/first/in "$folder" > /dev/full
status=$?
names
exit $status
