# the kind may be named
. files/live.bash
"$dfr" live --kind ascii dfr/replay/first/in "$folder"
cmp "$folder/rec1.cfg" files/first.cfg && cmp "$folder/rec1.dat" files/first.dat && echo same
