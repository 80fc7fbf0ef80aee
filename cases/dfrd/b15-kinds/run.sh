# each reason for which the folder takes no record is named, also a second one after the first
. files/dfrd.bash
mkfifo "$work/scans"
bash -c 'trap "" XFSZ; echo $$ > "$2"; exec "$0" --quiet --start 0 dfr/replay/first/in "$1"' "$dfrd" "$folder" "$work/pid" < "$work/scans" 2> >(cat > "$work/err") | cat > "$work/told" &
exec 3> "$work/scans"
printf 'scan 1/\nscan 2/\n' >&3
until_told "$work/told" 'start'
mv "$folder" "$folder.away"
printf 'trigger\nscan 3/\nscan 4/\nscan 5/\n' >&3
until_told "$work/err" 'no such'
prlimit --pid "$(cat "$work/pid")" --fsize=0:unlimited
mv "$folder.away" "$folder"
until_told "$work/err" 'size'
names
prlimit --pid "$(cat "$work/pid")" --fsize=unlimited:unlimited
until_told "$work/told" 'record 1'
exec 3>&-
wait
told < "$work/told" | grep '^record'
sed "s|$work|WORK|" "$work/err"
