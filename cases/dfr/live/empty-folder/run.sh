# an empty name is no folder's: nothing is written at the top of the file system
"$dfr" live dfr/replay/first/in ""
status=$?
ls /rec1.cfg /rec1.dat 2> /dev/null
exit $status
