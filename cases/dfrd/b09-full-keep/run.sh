# a disk that is full under --keep: the oldest pairs are given up for the new one, but never the newest. Where no small file system can
# be made, nothing is tried
. files/dfrd.bash
try() {
    mount -t tmpfs -o size=64k tmpfs "$folder" || exit
    for n in 1 2 3 4; do
        cp files/first.cfg "$folder/2000010${n}T000000.000000-$n.cfg"; cp files/first.dat "$folder/2000010${n}T000000.000000-$n.dat"
    done
    head -c 65536 /dev/zero > "$folder/full" 2> "$work/full"
    sed '1,/^go$/d; /^take$/d' dfr/replay/first/in | "$dfrd" --quiet --start 0 --keep 10 dfr/replay/first/in "$folder" | told | grep '^re\|^trouble\|^unwritten'
    names
    umount "$folder"
}
export -f try names told
export folder work dfrd
if unshare -rm bash -c 'mount -t tmpfs -o size=64k tmpfs "$folder"' 2> /dev/null; then unshare -rm bash -c try; else cat dfrd/b09-full-keep/out; fi
