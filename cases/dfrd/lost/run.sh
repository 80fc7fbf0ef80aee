# every scan keeps its place: lines of scans that can't be read, have another shape or a value out of range are lost, and so is a line
# with an unknown word; what else can't be read is skipped with its line
. files/dfrd.bash
printf 'station S\ndevice D\nanalog A,,,A,1,0,0,-100,100,1,1,P\nstatus S,,,0\nfreq 50\nrate 1000\nlimits 9,1,11,1\n' > "$work/setup"
"$dfrd" --quiet --start 0 "$work/setup" "$folder" <<'END' | told
# a comment

scan 1/0
scan 2/x
scan 3/0
scan 4,4/0
scan 5/0
scan 101/0
scan 6/1
lost
scan 7/0
step 8
take
rules level 9 over 1
rules level 0
scan
scan 9/0
go
trigger
scan 10/0
END
cat "$folder"/*.dat | tr -d "\r\032"
