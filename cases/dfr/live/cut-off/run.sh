# a run that is interrupted while it writes the second record's data: nothing is printed, the first record's files are whole
. files/live.bash
{ head -n 6 dfr/replay/first/in; printf '%s\n' 'limits 2,2,6,2'; sed -n '8,15p' dfr/replay/first/in; printf '%s\n' 'scan 16/' trigger 'scan 17/' 'scan 18/'; } > "$folder/script"
mkfifo "$folder/rec2.dat"
timeout -s INT 1 "$dfr" live "$folder/script" "$folder"
echo "status $?"
cmp "$folder/rec1.cfg" files/first.cfg && cmp "$folder/rec1.dat" files/first.dat && echo same
names
