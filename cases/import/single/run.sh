# single files of 2013
. files/import/pair.sh
# name; the separators before CFG, INF, HDR and DAT; what stands before the data's end
single() {
    mkdir "$folder/$1"
    cp $base.cfg "$folder/$1/want.cfg"
    cp $base.dat "$folder/$1/want.dat"
    { printf -- "$2"; sed -b '1s/1999/2013/;$s/$/\n0,0\r\nB,3\r/' $base.cfg; printf -- "$3"; sed -b '$d' $base.dat; printf -- "$4"; } > "$folder/$1/in.cff"
    imported "$1"
}
single text '--- file type: CFG ---\r\n' '--- file type: INF ---\r\n--- file type: HDR ---\r\n--- file type: DAT ASCII ---\r\n' ''
single with-texts '--- file type: CFG ---\r\n' '--- file type: INF ---\r\n[A]\r\n--- file type: HDR ---\r\n--- told ---\r\n--- file type: DAT ASCII ---\r\n' ''
single spelled '---file type: cfg---\r\n' '---FILE TYPE: DAT ASCII---\r\n' '\x1a'
single dat-without-kind '--- file type: CFG ---\r\n' '--- file type: DAT ---\r\n' ''
# the heading names another type than the data have
single other-kind '--- file type: CFG ---\r\n' '--- file type: DAT BINARY ---\r\n' ''
binary() { # name; the count that is said; what stands after the data
    mkdir "$folder/$1"
    cp $binary.cfg "$folder/$1/want.cfg"
    cp $binary.dat "$folder/$1/want.dat"
    { printf -- '--- file type: CFG ---\r\n'; sed -b '1s/1999/2013/;$s/$/\n0,0\r\nB,3\r/' $binary.cfg; printf -- "--- file type: DAT BINARY$2 ---\r\n"; cat $binary.dat; printf -- "$3"; } > "$folder/$1/in.cff"
    imported "$1"
}
binary counted ': 56' '--- file type: HDR ---\r\n'
binary at-the-end ': 56' ''
binary wrong-count ': 70' ''
binary too-few ': 42' '--- file type: HDR ---\r\n'
binary other-width '32: 56' ''
for name in no-dat no-cfg; do
    mkdir "$folder/$name"
done
{ printf -- '--- file type: CFG ---\r\n'; cat $base.cfg; } > "$folder/no-dat/in.cff"
{ printf -- '--- file type: DAT ASCII ---\r\n'; cat $base.dat; } > "$folder/no-cfg/in.cff"
for name in no-dat no-cfg; do
    "$comtrade" import "$folder/$name/in.cff" "$folder/$name/out" > "$folder/$name/told" 2>&1
    echo "$name: status $?: $(sed "s|$folder/$name/||g" "$folder/$name/told")"
    ls "$folder/$name" | grep out
done
exit 0
