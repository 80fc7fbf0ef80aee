# older files of the names are replaced, longer ones too; others stay
. files/live.bash
yes old | head -n 1000 | tee "$folder/rec1.cfg" "$folder/rec1.dat" "$folder/rec2.dat" > "$folder/rec10.dat"
"$dfr" live dfr/replay/first/in "$folder"
cmp "$folder/rec1.cfg" files/first.cfg && cmp "$folder/rec1.dat" files/first.dat && echo same
wc -c < "$folder/rec2.dat"
names
