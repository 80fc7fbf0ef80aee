# the same in BINARY form
. files/live.bash
"$dfr" live --kind binary dfr/replay/first/in "$folder"
names
tail -n 2 "$folder/rec1.cfg"
od -An -v -tx1 -w10 "$folder/rec1.dat"
