# records whose files cannot be opened or decompressed are listed with the reason, counted, and in the JSON; -o writes nothing where no record can be
# read, and makes no folder; a folder without a record
exec 2>&1
folder=$(mktemp -d)
trap 'rm -r "$folder"' EXIT
mkdir "$folder/lost" "$folder/empty"
cp files/first.cfg files/first.dat "$folder/lost"
cp files/first.cfg "$folder/lost/nodat.cfg"
cp files/first.cfg "$folder/lost/squeezed.cfg"
printf '\x1f\x8b\x08\x00broken' > "$folder/lost/squeezed.dat.gz"
printf 'PK\x05\x06' > "$folder/lost/archive.cfz"
echo nothing > "$folder/lost/single.cff"
cd "$folder" || exit 1
run() { # run WORD..: what is printed and the status
    echo "== $*"
    "$comtrade" "$@"
    echo "status $?"
}
run list lost
run list --json lost
run events lost
run events --json lost
run check lost
run check --json lost
run measure --json lost
run fault lost
"$comtrade" fault --json lost 2> /dev/null | grep -o '"unread":.*'
"$comtrade" report lost 2> /dev/null | grep -A 7 '^<pre>\|<pre>.*nodat' | grep 'nodat\|pairs'
# nothing can be read: nothing is written
run list none lost/nodat.cfg
for verb in check events 'events --csv' fault measure report plot page; do
    run $verb none lost/nodat.cfg -o made
done
run list none lost/nodat.cfg -o list.txt
cat list.txt
for verb in list events fault check measure; do
    run $verb empty
done
for verb in report plot page; do
    run $verb empty -o made
done
run check empty lost/first.cfg
run plot empty lost/first.cfg lost/nodat.cfg -o pictures
ls
ls pictures
