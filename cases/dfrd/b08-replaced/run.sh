# another folder gets the name of the folder: a second recording may lock that one, and then the first writes nothing into it; when
# the second has ended, the first locks it and goes on there
. files/dfrd.bash
mkfifo "$work/scans" "$work/other"
"$dfrd" --quiet --start 0 dfr/replay/first/in "$folder" < "$work/scans" > "$work/told" 2> "$work/err" &
first=$!
exec 3> "$work/scans"
printf 'scan 1/\nscan 2/\n' >&3
until_told "$work/told" 'start'
mv "$folder" "$folder.old"
mkdir "$folder"
"$dfrd" --quiet --start 0 dfr/replay/first/in "$folder" < "$work/other" > "$work/second" &
second=$!
exec 4> "$work/other"
echo 'scan 1/' >&4
until_told "$work/second" 'start'
printf 'trigger\nscan 3/\nscan 4/\n' >&3
until_told "$work/told" 'trouble'
names
exec 4>&-
wait $second
until_told "$work/told" 'record 1'
"$dfrd" --quiet dfr/replay/first/in "$folder" < /dev/null 2>&1 | sed "s|$work|WORK|"
exec 3>&-
wait $first
told < "$work/told"
sed "s|$work|WORK|" "$work/err"
names
ls "$folder.old"
