# names that are the two files of a pair are one record, where the first of them stands; other names of one record are two
exec 2>&1
folder=$(mktemp -d)
trap 'rm -r "$folder"' EXIT
mkdir "$folder/storm"
for name in a b; do
    cp ../examples/earth-fault/rec1.cfg "$folder/storm/$name.cfg"
    cp ../examples/earth-fault/rec1.dat "$folder/storm/$name.dat"
done
cp files/first.cfg "$folder/storm/c.CFG"
cp files/first.dat "$folder/storm/c.DAT"
gzip -c files/first.cfg > "$folder/storm/d.cfg.gz"
gzip -c files/first.dat > "$folder/storm/d.dat.gz"
cd "$folder" || exit 1
names() { sed -n 's/^.*\(storm\/[^ ]*\) *$/\1/p; /pairs,/p'; }
"$comtrade" list storm/* | names
"$comtrade" list storm/*.dat storm/*.cfg storm/c.DAT | names
"$comtrade" list storm storm/a.dat storm/c.DAT | names
"$comtrade" list storm/b.dat storm | names
"$comtrade" check storm/* | tail -n 1
"$comtrade" check --json storm/* | sed 's/,.*//'
"$comtrade" fault storm/* | tail -n 1
"$comtrade" events storm/[ab].* | grep -c trigger
"$comtrade" report storm/* | grep -c '<section>'
"$comtrade" plot storm/* -o pictures
"$comtrade" page storm/[ab].* -o pages
"$comtrade" measure --at 20 storm/[ab].* | grep '^storm\|records'
# other names of one record; data that another file of the same name is read with
"$comtrade" list storm/a storm/a.cfg storm/a.cfg storm/a.dat | names
cp storm/a.dat storm/d.dat
"$comtrade" list storm/d.* | names
"$comtrade" list storm/none.cfg storm/none.dat
echo "status $?"
