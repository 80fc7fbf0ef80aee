# two recordings never share a folder
. files/dfrd.bash
mkfifo "$work/scans"
"$dfrd" --quiet --start 0 dfr/replay/first/in "$folder" < "$work/scans" > "$work/told" &
exec 3> "$work/scans"
echo 'scan 1/' >&3
until_told "$work/told" 'start'
"$dfrd" --quiet dfr/replay/first/in "$folder" < /dev/null 2>&1 | sed "s|$work|WORK|"
exec 3>&-
wait
