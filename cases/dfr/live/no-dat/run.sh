# a data file that can't be made: the configuration file is there
. files/live.bash
mkdir "$folder/rec1.dat"
"$dfr" live dfr/replay/first/in "$folder"
status=$?
names
cmp "$folder/rec1.cfg" files/first.cfg && echo same
exit $status
