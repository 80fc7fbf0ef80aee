# nobody reads standard output, a pipe that is full: the end waits five seconds for it, no longer
. files/dfrd.bash
mkfifo "$work/out"
exec 4<> "$work/out"
head -c 65536 /dev/zero >&4
sed '1,/^go$/d; /^take$/d' dfr/replay/first/in | timeout 9 "$dfrd" --quiet --start 0 dfr/replay/first/in "$folder" > "$work/out"
echo "${PIPESTATUS[1]}"
names
