# a folder of records, one repaired, some faulty: by the instants of the triggers, the greatest current by its nominal one, the faults, how many there are
exec 2>&1
folder=$(mktemp -d)
trap 'rm -r "$folder"' EXIT
mkdir "$folder/storm"
cp ../examples/earth-fault/rec1.cfg "$folder/storm/b.cfg"; cp ../examples/earth-fault/rec1.dat "$folder/storm/b.DAT"
cp files/first.cfg "$folder/storm/a.CFG"; cp files/first.dat "$folder/storm/a.dat"
cp files/counts.cfg "$folder/storm/c.cfg"; cp files/first.dat "$folder/storm/c.dat"
cp files/binary.cfg "$folder/storm/d.cfg"
sed '3s/,1,0,0,/,x,0,0,/' files/first.cfg > "$folder/storm/e.cfg"; cp files/first.dat "$folder/storm/e.dat"
cd "$folder" || exit 1
"$comtrade" list storm
echo "status $?"
"$comtrade" list storm/b storm/a.CFG
echo "status $?"
"$comtrade" list nothing
echo "status $?"
"$comtrade" list
echo "status $?"
