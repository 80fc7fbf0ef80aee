# the oldest pairs of our own naming go, by the instant and then by the number; nothing else does
. files/dfrd.bash
for name in 20200101T000000.000000-9 20200101T000000.000000-10 20191231T235959.999999-11 mine; do
    cp files/first.cfg "$folder/$name.cfg"; cp files/first.dat "$folder/$name.dat"
done
cp files/first.dat "$folder/20190101T000000.000000-1.dat"
once() { sed '1,/^go$/d; /^take$/d' dfr/replay/first/in | "$dfrd" --quiet "$@" dfr/replay/first/in "$folder" | told | grep '^re'; }
once --start 1719829800000000 --keep 3
names
once --start 1719829900000000 --keep-bytes 1
names
once --start 0 --keep 1 # the clock was set back
names
