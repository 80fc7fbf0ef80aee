# the input ends within a frame, and before any
. files/dfrd.bash
printf '\1\0\2\0\3' | "$dfrd" --raw --quiet --start 0 dfr/replay/first/in "$folder" | told
"$dfrd" --raw --quiet --start 0 dfr/replay/first/in "$folder" < /dev/null | told
names
