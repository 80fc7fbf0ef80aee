# somebody removed the oldest pair meanwhile: it is forgotten, and the next oldest goes in its turn
. files/dfrd.bash
for name in 20000101T000000.000000-1 20000102T000000.000000-2; do
    cp files/first.cfg "$folder/$name.cfg"; cp files/first.dat "$folder/$name.dat"
done
mkfifo "$work/scans"
"$dfrd" --quiet --start 0 --keep 2 dfr/replay/first/in "$folder" < "$work/scans" > "$work/told" &
exec 3> "$work/scans"
printf 'scan 1/\nscan 2/\n' >&3
until_told "$work/told" 'start'
rm "$folder"/20000101*
printf 'trigger\nscan 3/\nscan 4/\n' >&3
until_told "$work/told" 'record 1'
names
printf 'trigger\nscan 5/\nscan 6/\n' >&3
until_told "$work/told" 'record 2'
exec 3>&-
wait
told < "$work/told" | grep '^re'
names
