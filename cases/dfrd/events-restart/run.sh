# a second run appends to the file of events; a last line that is not whole is left as it is, and that is told; another file is refused,
# and so are words that make no sense
. files/dfrd.bash
printf 'station S\ndevice D\nanalog A,,,A,1,0,0,-100,100,1,1,P\nstatus Trip,,,0\nstatus 52b,,,1\nfreq 50\nrate 1000\nlimits 9,1,11,1\n' > "$work/setup"
run() { "$dfrd" --quiet --start 0 --events "$work/events" "$work/setup" "$folder" 2>&1 | told | sed "s|$work|WORK|"; }
printf 'scan 1/0,1\nscan 1/1,1\nlost\nlost\nscan 1/0,0\n' | run
printf 'scan 1/0,0\nscan 1/0,0\n' | run
cat "$work/events"
echo == torn
printf '1970-01-01 00:00:00.0' >> "$work/events"
printf 'scan 1/1,1\n' | run
cat "$work/events"
echo == another file
printf 'x\n' > "$work/other"
words() { "$dfrd" --quiet --start 0 "$@" "$work/setup" "$folder" < /dev/null 2>&1 | sed "s|$work|WORK|"; echo "${PIPESTATUS[0]}"; }
words --events "$work/other"
words --events "$work/none/events"
words --events "$folder"
words --events "$folder/19700101T000000.003000-1.cfg"
words --chatter 3
words --events "$work/events" --chatter 0
words --events "$work/events" --chatter 1001
cat "$work/other"
