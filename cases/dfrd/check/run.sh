# what would be recorded; nothing is
. files/dfrd.bash
"$dfrd" --check dfr/replay/first/in "$folder"
echo $?
names
