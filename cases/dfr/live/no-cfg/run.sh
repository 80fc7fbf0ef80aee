# a configuration file that can't be made: a folder has its name
. files/live.bash
mkdir "$folder/rec1.cfg"
"$dfr" live dfr/replay/first/in "$folder"
status=$?
names
exit $status
