# a disk that is full after 1,024 bytes of the configuration file: they stay, and no data file is made
. files/live.bash
{
    head -n 2 dfr/replay/first/in
    for k in {1..40}; do echo "analog I$k,A,,A,1,0,0,-32767,32767,1,1,P"; done
    printf '%s\n' 'freq 50' 'rate 1000' 'start 0' 'limits 2,2,6,1' go
    for k in {0..3}; do echo "scan $(printf '%d,' {1..39})$k/"; done
    printf '%s\n' trigger
    for k in {4..5}; do echo "scan $(printf '%d,' {1..39})$k/"; done
} > "$folder/script"
trap '' XFSZ
(ulimit -f 1; "$dfr" live "$folder/script" "$folder")
status=$?
{
    printf '%s\r\n' 'Bay 1,DFR,1999' '40,40A,0D'
    for k in {1..40}; do printf '%d,I%d,A,,A,1,0,0,-32767,32767,1,1,P\r\n' "$k" "$k"; done
} | head -c 1024 | cmp - "$folder/rec1.cfg" && echo front
names
exit $status
