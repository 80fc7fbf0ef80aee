# a covered trigger of a live run, and the record after it
. files/live.bash
"$dfr" live dfr/replay/unshared-manual-trigger/in "$folder"
names
cmp "$folder/rec1.cfg" files/first.cfg && cmp "$folder/rec1.dat" files/first.dat && echo same
tr -d "\r" < "$folder/rec2.dat" | tr "\032" "."
