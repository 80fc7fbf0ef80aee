# with --clip a sample of -32768 counts as -32767 and fires its rule; where a channel's range ends before, the scan is lost; --clip is of
# frames alone
. files/dfrd.bash
clipped() { # clipped MIN
    printf 'station S\ndevice D\nanalog A,,,A,1,0,0,%s,32767,1,1,P\nfreq 50\nrate 1000\nlimits 1,1,4,2\nrules level 0 under -20000\n' "$1" > "$work/setup"
    printf '%s\n' 0 -32768 -32767 0 0 0 | frames | "$dfrd" --quiet --raw --clip --start 0 "$work/setup" "$folder" | told
}
clipped -32767
tr -d '\r\032' < "$folder"/*.dat
clipped -32000
"$dfrd" --clip "$work/setup" "$folder" < /dev/null 2>&1
echo $?
