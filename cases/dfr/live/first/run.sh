# the first script's record: the files are those of the replay, and a take is skipped
. files/live.bash
"$dfr" live dfr/replay/first/in "$folder"
names
cmp "$folder/rec1.cfg" files/first.cfg && cmp "$folder/rec1.dat" files/first.dat && echo same
