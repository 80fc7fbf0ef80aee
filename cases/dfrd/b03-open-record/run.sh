# the input ends with a record open: lost scans close it, and it is written; also while the folder is away
. files/dfrd.bash
open() { printf 'scan 1/\nscan 2/\nscan 3/\ntrigger\nscan 4/\n'; }
open | "$dfrd" --quiet --start 0 dfr/replay/first/in "$folder" | told
names
tr -d '\r\032' < "$folder/19700101T000000.002000-1.dat"
printf 'scan 1/\nlost\nscan 3/\ntrigger\nlost\n' | "$dfrd" --quiet --start 1000000 dfr/replay/first/in "$folder" | told
mkfifo "$work/scans"
"$dfrd" --quiet --start 2000000 dfr/replay/first/in "$folder" < "$work/scans" > "$work/told" &
exec 3> "$work/scans"
open >&3
until_told "$work/told" 'opened 1'
mv "$folder" "$folder.away"
exec 3>&-
until_told "$work/told" 'trouble gone'
mv "$folder.away" "$folder"
wait $!
echo $?
told < "$work/told"
