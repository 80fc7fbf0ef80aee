# a disk that takes no byte of the configuration file: no data file is made
. files/live.bash
ln -s /dev/full "$folder/rec1.cfg"
"$dfr" live dfr/replay/first/in "$folder"
status=$?
names
exit $status
