# the folder is gone, and comes back: recording goes on, the shelf fills, and nothing of it is lost that was taken
. files/dfrd.bash
mkfifo "$work/scans"
"$dfrd" --quiet --start 0 dfr/replay/first/in "$folder" < "$work/scans" > "$work/told" &
exec 3> "$work/scans"
printf 'scan 1/\nscan 2/\n' >&3
until_told "$work/told" 'start'
sleep 0.2
mv "$folder" "$folder.away"
printf 'trigger\nscan 3/\nscan 4/\nscan 5/\n' >&3
until_told "$work/told" 'trouble gone'
printf 'trigger\nscan 6/\nscan 7/\n' >&3
until_told "$work/told" 'shelf full'
printf 'trigger\nscan 8/\n' >&3
until_told "$work/told" 'refused shelf-full'
mv "$folder.away" "$folder"
until_told "$work/told" 'record 2'
exec 3>&-
wait
told < "$work/told"
grep -q ' shelf full 1$' "$work/told" && grep -q ' shelf free$' "$work/told" && echo 'full, and free'
names
