# the scans that are lost, by the reason: each has a line of its own, and a metric; a station's name with a quote and a backslash
. files/dfrd.bash
printf 'station a "b" \\c\ndevice D\nanalog A,,,A,1,0,0,-100,100,1,1,P\nstatus S,,,0\nfreq 50\nrate 1000\nlimits 1,1,3,1\n' > "$work/setup"
printf '%s\n' 'scan 1/0' lost 'scan 2/0' 'scan 101/0' lost 'scan 3/0' 'scan 4/x' 'xcan 5/0' 'scan -101/0' 'scan 6/0' lost 'scan 7/0' |
    "$dfrd" --quiet --start 0 --health "$work/prom" "$work/setup" "$folder" | told
grep '^dfrd_lost\|^dfrd_scans' "$work/prom"
! type -P promtool > "$work/which" || promtool check metrics < "$work/prom" 2>&1
