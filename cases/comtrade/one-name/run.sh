# one name finds its partner, in any case of letters, and what isn't there is said; both names stay possible; names of new files
folder=$(mktemp -d)
trap 'rm -r "$folder"' EXIT
exec 2>&1
checked() {
    "$comtrade" check "$@" | sed "s|$folder/||g"
    echo "status ${PIPESTATUS[0]}"
}
cp files/first.cfg "$folder/a.cfg"; cp files/first.dat "$folder/a.dat"
cp files/first.cfg "$folder/b.CFG"; cp files/first.dat "$folder/B.Dat"
cp files/first.cfg "$folder/c.d.cfg"; cp files/first.dat "$folder/c.d.dat"
cp files/first.cfg "$folder/alone.cfg"
checked "$folder/a"
checked "$folder/a.cfg"
checked "$folder/a.dat"
checked "$folder/b"
checked "$folder/b.CFG"
checked "$folder/B.Dat"
checked "$folder/c.d"
(cd "$folder" && "$comtrade" check a && "$comtrade" check ./a.dat)
for name in alone none a.txt; do
    "$comtrade" check "$folder/$name" 2>&1 | sed "s|$folder/|FOLDER/|g"
done
"$comtrade" show - -
echo "status $?"
# convert by one name, and names that new files can't have
"$comtrade" convert --kind binary "$folder/a" "$folder/new" && cmp "$folder/new.dat" files/binary.dat && echo converted
for name in "" "$folder/x.cfg" "$folder/x.DAT" "$folder/"; do
    "$comtrade" convert --kind ascii "$folder/a" "$name" 2>&1 | sed "s|$folder/||g"
    echo "status ${PIPESTATUS[0]}"
done
"$comtrade" extract ""
echo "status $?"
"$comtrade" extract "$folder/records" < /dev/null
echo "status $?"
# the verdict is the status, whoever reads
{ sleep 0.3; "$comtrade" check files/counts.cfg files/first.dat; echo "gone away: status $?" >&2; } | true
{ sleep 0.3; "$comtrade" check "$folder/a"; echo "gone away: status $?" >&2; } | true
