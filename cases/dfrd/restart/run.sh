# a second recording of the same instants takes other names; what an earlier one left that was cut off is ended
. files/dfrd.bash
once() { sed '1,/^go$/d; /^take$/d' dfr/replay/first/in | "$dfrd" --quiet --start 0 dfr/replay/first/in "$folder" | told | grep "^record"; }
once
once
name=$folder/19700101T000000.009000-7
cp files/first.dat "$name.dat"; cp files/first.cfg "$name.cfg.part"     # between the two new names: the pair is whole
name=$folder/19700101T000000.009000-8
head -c 9 files/first.dat > "$name.dat.part"; cp files/first.cfg "$name.cfg.part" # before: nothing of it stays
name=$folder/19700101T000000.009000-9
cp files/first.dat "$name.dat"; cp files/first.cfg "$name.cfg.gone"     # while it was removed: it goes
echo mine > "$folder/mine.cfg.part"
once
names
"$dfr" read "$folder/19700101T000000.009000-7.cfg" "$folder/19700101T000000.009000-7.dat" | tail -1
