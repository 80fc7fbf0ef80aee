# pairs that can't be removed, here since folders are in the place of their files: each is named once, and the next oldest goes
. files/dfrd.bash
for n in 1 2 3 4 5; do
    cp files/first.cfg "$folder/2000010${n}T000000.000000-$n.cfg"; cp files/first.dat "$folder/2000010${n}T000000.000000-$n.dat"
done
cd "$folder" || exit
mkdir 20000101T000000.000000-1.cfg.gone                                   # its removal can't begin, as is said at the start
rm 20000102T000000.000000-2.dat; mkdir 20000102T000000.000000-2.dat       # it can't go on
mv 20000104T000000.000000-4.cfg{,.gone}                                   # nor here, where it was cut off
rm 20000104T000000.000000-4.dat; mkdir 20000104T000000.000000-4.dat
cd - > /dev/null || exit
mkfifo "$work/scans"
"$dfrd" --quiet --start 0 --keep 3 dfr/replay/first/in "$folder" < "$work/scans" > "$work/told" 2> "$work/err" &
exec 3> "$work/scans"
printf 'scan 1/\nscan 2/\ntrigger\nscan 3/\nscan 4/\n' >&3
until_told "$work/told" 'record 1'
sleep 0.2
printf 'trigger\nscan 5/\nscan 6/\n' >&3
until_told "$work/told" 'record 2'
exec 3>&-
wait $!
echo $?
told < "$work/told" | grep '^re'
sed "s|$work|WORK|" "$work/err"
names
