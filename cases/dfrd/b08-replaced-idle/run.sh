# another folder gets the name of the folder while no record comes: within ten seconds that is named and the other folder locked
. files/dfrd.bash
mkfifo "$work/scans"
"$dfrd" --quiet --start 0 dfr/replay/first/in "$folder" < "$work/scans" > "$work/told" 2> "$work/err" &
exec 3> "$work/scans"
echo 'scan 1/' >&3
until_told "$work/told" 'start'
mv "$folder" "$folder.old"
mkdir "$folder"
until_told "$work/err" 'another folder'
"$dfrd" --quiet dfr/replay/first/in "$folder" < /dev/null 2>&1 | sed "s|$work|WORK|"
"$dfrd" --quiet dfr/replay/first/in "$folder.old" < /dev/null 2>&1 | told | grep end
exec 3>&-
wait $!
told < "$work/told" | grep -v silent
sed "s|$work|WORK|" "$work/err"
