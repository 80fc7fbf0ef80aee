# a disk that takes no byte of the data file
. files/live.bash
ln -s /dev/full "$folder/rec1.dat"
"$dfr" live dfr/replay/first/in "$folder"
status=$?
names
cmp "$folder/rec1.cfg" files/first.cfg && echo same
exit $status
