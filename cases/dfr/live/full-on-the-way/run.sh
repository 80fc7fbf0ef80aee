# a disk that is full after 1,024 bytes of the data file: they stay, and nothing is tried again
. files/live.bash
{
    head -n 6 dfr/replay/first/in
    printf '%s\n' 'limits 99,1,101,1' go
    for k in {10..109}; do echo "scan $k/"; done
    printf '%s\n' trigger 'scan 110/'
} > "$folder/script"
trap '' XFSZ
(ulimit -f 1; "$dfr" live "$folder/script" "$folder")
status=$?
for k in {10..110}; do printf '%d,%d,%d\r\n' $((k - 9)) $((k * 1000 - 10000)) "$k"; done | head -c 1024 | cmp - "$folder/rec1.dat" && echo front
exit $status
