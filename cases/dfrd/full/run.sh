# no file may grow, as on a disk that is full, and then they may again: the record that waited is written
. files/dfrd.bash
mkfifo "$work/scans"
limited='trap "" XFSZ; echo $$ > "$2"; ulimit -S -f 0; exec "$0" --quiet --start 0 dfr/replay/first/in "$1"'
bash -c "$limited" "$dfrd" "$folder" "$work/pid" < "$work/scans" | cat > "$work/told" &
exec 3> "$work/scans"
sed '1,/^go$/d; /^take$/d' dfr/replay/first/in >&3
until_told "$work/told" 'trouble full'
names
prlimit --pid "$(cat "$work/pid")" --fsize=unlimited
until_told "$work/told" 'record 1'
exec 3>&-
wait
told < "$work/told"
cmp "$folder/19700101T000000.003000-1.cfg" files/first.cfg && cmp "$folder/19700101T000000.003000-1.dat" files/first.dat && echo same
