# what a crash can leave of a pair, in each order of its renames: data that has a .cfg is never lost
. files/dfrd.bash
cd "$folder" || exit
files=$OLDPWD/files
cp "$files/first.cfg" 19700101T000000.009000-1.cfg; cp "$files/first.dat" 19700101T000000.009000-1.dat.part       # the second rename alone
cp "$files/first.cfg" 19700101T000000.009000-2.cfg.part; cp "$files/first.dat" 19700101T000000.009000-2.dat       # the first alone
cp "$files/first.dat" 19700101T000000.009000-2.dat.part                                                          # and its old name too
cp "$files/first.cfg" 19700101T000000.009000-3.cfg; cp "$files/first.dat" 19700101T000000.009000-3.dat           # whole, though
cp "$files/first.cfg" 19700101T000000.009000-3.cfg.gone                                                          # one was removed before
cp "$files/first.cfg" 19700101T000000.009000-4.cfg.part; cp "$files/first.dat" 19700101T000000.009000-4.dat.part # neither rename
cp "$files/first.cfg" 19700101T000000.009000-5.cfg.gone                                                          # removed but for this
cd "$OLDPWD" || exit
"$dfrd" --check dfr/replay/first/in "$folder" > "$work/checked" 2>&1
echo $?
names
for n in 1 2 3; do cmp "$folder/19700101T000000.009000-$n.dat" files/first.dat && cmp "$folder/19700101T000000.009000-$n.cfg" files/first.cfg; done
