# a file of events that is emptied meanwhile, as by a program that rotates logs, gets its first line again; a FIFO is none
. files/dfrd.bash
printf 'station S\ndevice D\nanalog A,,,A,1,0,0,-100,100,1,1,P\nstatus Trip,,,0\nfreq 50\nrate 1000\nlimits 9,1,11,1\n' > "$work/setup"
mkfifo "$work/scans" "$work/fifo"
"$dfrd" --quiet --start 0 --events "$work/events" "$work/setup" "$folder" < "$work/scans" > "$work/told" &
exec 3> "$work/scans"
printf 'scan 1/0\nscan 1/1\n' >&3
until_told "$work/events" '1,off-normal'
cat "$work/events"
echo == emptied
: > "$work/events"
printf 'scan 1/1\nscan 1/0\n' >&3
until_told "$work/events" '0,normal'
exec 3>&-
wait
cat "$work/events"
echo == again
printf 'scan 1/1\n' | "$dfrd" --quiet --start 0 --events "$work/events" "$work/setup" "$folder" | told
cat "$work/events"
echo == a FIFO
"$dfrd" --quiet --start 0 --events "$work/fifo" "$work/setup" "$folder" < /dev/null 2>&1 | sed "s|$work|WORK|"
echo "${PIPESTATUS[0]}"
