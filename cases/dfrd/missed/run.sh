# rules that fire while the shelf is full open no record: they are counted, and told once it is free
. files/dfrd.bash
mkfifo "$work/scans"
"$dfrd" --quiet --start 0 dfr/replay/first/in "$folder" < "$work/scans" > "$work/told" &
exec 3> "$work/scans"
printf 'rules level 0 over 100\nscan 1/\nscan 2/\n' >&3
until_told "$work/told" 'rules set'
sleep 0.2
mv "$folder" "$folder.away"
printf 'trigger\nscan 3/\nscan 4/\nscan 5/\n' >&3
until_told "$work/told" 'trouble gone'
printf 'trigger\nscan 6/\nscan 7/\n' >&3
until_told "$work/told" 'shelf full'
printf 'scan 200/\nscan 3/\nscan 201/\ntrigger\n' >&3
until_told "$work/told" 'refused shelf-full'
mv "$folder.away" "$folder"
until_told "$work/told" 'missed triggers'
until_told "$work/told" 'record 2'
exec 3>&-
wait
told < "$work/told" | grep -v '^missed'
grep -B1 ' missed triggers ' "$work/told" | cut -d' ' -f2-
names
