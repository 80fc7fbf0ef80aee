# the syslog level of each line, and what follows it is the line: ordinary ones, losses, trouble
. files/dfrd.bash
mkfifo "$work/scans"
"$dfrd" --quiet --journal --start 0 dfr/replay/first/in "$folder" < "$work/scans" > "$work/told" &
exec 3> "$work/scans"
printf 'scan 1/\nlost\nscan 2/\n' >&3
until_told "$work/told" 'lost'
printf 'freq 50\n' >&3
until_told "$work/told" 'skipped'
mv "$folder" "$folder.away"
printf 'trigger\nscan 3/\nscan 4/\nscan 5/\n' >&3
until_told "$work/told" 'trouble gone'
printf 'trigger\nscan 6/\nscan 7/\n' >&3
until_told "$work/told" 'shelf full'
printf 'trigger\nscan 8/\n' >&3
until_told "$work/told" 'refused shelf-full'
mv "$folder.away" "$folder"
until_told "$work/told" 'record 2'
exec 3>&-
wait
sed 's/^\(<[0-9]>\)[0-9]*-[0-9]*-[0-9]*T[0-9:.]* /\1 /; s/ clock.*//' "$work/told" | grep -v 'shelf f'
sed -n 's/>[^ ]* shelf/> shelf/p' "$work/told" | sort -u
