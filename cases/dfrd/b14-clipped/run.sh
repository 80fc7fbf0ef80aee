# a converter that clips at -32768 sends a missing sample there, which fires no rule; at -32767 the rule fires. The manual warns of it
# where it shows a sound card
. files/dfrd.bash
printf 'station S\ndevice D\nanalog A,,,A,1,0,0,-32767,32767,1,1,P\nfreq 50\nrate 1000\nlimits 1,1,4,2\nrules level 0 under -20000\n' > "$work/setup"
for clipped in -32768 -32767; do
    printf '%s\n' 0 "$clipped" "$clipped" 0 0 0 | frames | "$dfrd" --quiet --raw --start 0 "$work/setup" "$folder" | told
    cat "$folder"/*.dat 2> /dev/null | tr -d '\r\032'
done
sed -n '/^arecord/,/^###/p' ../docs/dfrd.md | grep -o -e '-t raw' -e '-32768' | sort -u
