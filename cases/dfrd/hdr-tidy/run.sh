# headers go with their pairs; those without one are removed at the start, if headers are asked for; a header that can't be written is
# named, and its pair is stored
. files/dfrd.bash
once() { sed '1,/^go$/d; /^take$/d' dfr/replay/first/in | "$dfrd" --quiet "$@" dfr/replay/first/in "$folder" | told | grep '^re'; }
touch "$folder/20200101T000000.000000-1.hdr" "$folder/20200101T000000.000000-2.hdr.part" "$folder/mine.hdr" # of no pair
cp files/first.dat "$folder/20190101T000000.000000-1.dat"; touch "$folder/20190101T000000.000000-1.hdr"     # of data alone
echo "== off"
once --start 1719829800000000 2> "$work/err"
names
echo "== on"
once --start 1719829900000000 --hdr --keep 2 2>> "$work/err"
names
echo "== the oldest goes with its header"
once --start 1719830000000000 --hdr --keep 1 2>> "$work/err"
names
echo "== kept by a dfrd without the option"
once --start 1719830100000000 --keep 1 2>> "$work/err"
names
echo "== can't be written"
mkdir "$folder/20240701T103520.003000-1.hdr.part"
once --start 1719830120000000 --hdr 2> "$work/last"
names
sed "s|$folder|DIR|" "$work/last"
echo "== its name is taken"
mkdir "$folder/20240701T103540.003000-1.hdr"
once --start 1719830140000000 --hdr 2> "$work/last"
names
sed "s|$folder|DIR|" "$work/last"
