# the first script's scans and its trigger as they come: the files are those of the replay
. files/dfrd.bash
sed '1,/^go$/d; /^take$/d' dfr/replay/first/in | "$dfrd" --quiet --start 0 dfr/replay/first/in "$folder" | told
names
cmp "$folder/19700101T000000.003000-1.cfg" files/first.cfg && cmp "$folder/19700101T000000.003000-1.dat" files/first.dat && echo same
