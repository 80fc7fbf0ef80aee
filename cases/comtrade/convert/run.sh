# there and back; what a kind can't hold; files that are there already; a half that is taken away
folder=$(mktemp -d)
trap 'rm -r "$folder"' EXIT
converted() {
    "$comtrade" convert "$@" | sed "s|$folder/||g"
    echo "status ${PIPESTATUS[0]}"
}
example=../examples/earth-fault/rec1
converted --kind binary $example.cfg $example.dat "$folder/binary"
converted --kind ascii "$folder/binary.cfg" "$folder/binary.dat" "$folder/ascii"
cmp "$folder/ascii.cfg" $example.cfg && cmp "$folder/ascii.dat" $example.dat && echo same
diff <(tr -d '\r' < $example.cfg) <(tr -d '\r' < "$folder/binary.cfg")
wc -c < "$folder/binary.dat"
cmp <("$comtrade" csv $example.cfg $example.dat) <("$comtrade" csv "$folder/binary.cfg" "$folder/binary.dat") && echo same
converted --kind ascii files/lenient.cfg files/binary.dat "$folder/lenient"
cat "$folder/lenient.cfg" "$folder/lenient.dat"
refused() {
    "$comtrade" convert "$@" 2>&1 | sed "s|$folder/||g"
    echo "status ${PIPESTATUS[0]}"
}
refused --kind ascii --strict files/gaps.cfg files/gaps.dat "$folder/gaps"
sed '1s/.*/B,d,1999/' files/gaps.cfg > "$folder/plain.cfg"
refused --kind binary --strict "$folder/plain.cfg" files/gaps.dat "$folder/gaps"
sed 's/^2,1000,/2,4294967295,/' files/first.dat > "$folder/late.dat"
refused --kind binary --strict files/first.cfg "$folder/late.dat" "$folder/gaps"
refused --kind binary --strict files/counts.cfg files/first.dat "$folder/gaps"
refused --kind binary --strict files/first.cfg files/cut.dat "$folder/gaps"
refused --kind ascii $example.cfg $example.dat "$folder/ascii"
cmp "$folder/ascii.cfg" $example.cfg && echo same
echo mine > "$folder/half.dat"
refused --kind ascii $example.cfg $example.dat "$folder/half"
refused --kind ascii $example.cfg $example.dat "$folder/none/half"
ls "$folder"
cat "$folder/half.dat"
