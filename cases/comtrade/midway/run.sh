# pairs that can't be written whole: what became of each file is said, and no half pair stays
folder=$(mktemp -d)
trap 'rm -r "$folder"' EXIT
tried() {
    "$comtrade" "$@" 2>&1 | sed "s|$folder/||g"
    echo "status ${PIPESTATUS[0]}"
}
# the same with files of at most 1 KiB, as a full disk cuts them off
limited() {
    (
        trap '' XFSZ
        ulimit -f 1
        exec "$comtrade" "$@"
    ) 2>&1 | sed "s|$folder/||g"
    echo "status ${PIPESTATUS[0]}"
}
example=../examples/earth-fault/rec1
# paths that can't be made
tried convert --kind ascii files/first.cfg files/first.dat "$folder/none/x"
tried convert --kind ascii files/first.cfg files/first.dat /dev/null/x
# the data file can't be made: a folder and a link to a full device stand there
mkdir "$folder/folder.dat"
ln -s /dev/full "$folder/link.dat"
tried convert --kind ascii files/first.cfg files/first.dat "$folder/folder"
tried convert --kind ascii files/first.cfg files/first.dat "$folder/link"
# the disk is full within the data file, and within the configuration file
limited convert --kind ascii $example.cfg $example.dat "$folder/full"
{
    printf 's,d,1999\r\n40,40A,0D\r\n'
    for n in $(seq 40); do printf '%s,channel %s,A,,kV,0.01,0,0,-32767,32767,1,1,P\r\n' "$n" "$n"; done
    printf '50\r\n1\r\n1000,1\r\n01/07/2024,10:30:00.000000\r\n01/07/2024,10:30:00.000000\r\nASCII\r\n1\r\n'
} > "$folder/wide.cfg"
printf '1,0%s\r\n' "$(for n in $(seq 40); do printf ',%s' "$n"; done)" > "$folder/wide.dat"
limited convert --kind ascii "$folder/wide.cfg" "$folder/wide.dat" "$folder/again"
# the same of records that are cut out of a replay: the first pair stays where the second can't be written
mkdir -p "$folder/records/rec2.dat"
"$dfr" < dfr/replay/scans-shared-by-two-records/in | tried extract "$folder/records"
"$dfr" < ../examples/earth-fault/script | limited extract "$folder/cut"
"$dfr" < dfr/replay/first/in | tried extract "$folder/wide.cfg"
(cd "$folder" && find . | LC_ALL=C sort)
