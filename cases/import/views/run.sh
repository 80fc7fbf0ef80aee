# the commands over files of other makers print what they print of the pair of 1999 that says the same, and tell on standard error what was
# repaired; --strict refuses; check names what the files are
. files/import/pair.sh
short='3s/,600.*\r/\r/;4s/,110000.*\r/\r/;5s/,,Q0//;6s/,A,F21//'
like91='3s/600,1,P/1,1,P/;4s/110000,100,S/1,1,P/;5s/,Q0,/,,/;6s/,A,F21,/,,,/'
# name; the edits of the base that make what is looked at; those of the pair that says the same
made() {
    mkdir "$folder/$1"
    sed -b -e "$2" $base.cfg > "$folder/$1/in.cfg"
    sed -b -e "$3" $base.dat > "$folder/$1/in.dat"
    sed -b -e "$4" $base.cfg > "$folder/$1/want.cfg"
    sed -b -e "$5" $base.dat > "$folder/$1/want.dat"
}
seen() { # a folder, and what the record in it is called
    local of=$folder/$1 verb
    rm -f "$of"/new.* "$of"/same.*
    for verb in show csv plot page 'csv --to 1 --channels IA' events; do
        "$comtrade" $verb "$of/$2" > "$of/got" 2> "$of/told"
        local status=$?
        "$comtrade" $verb "$of/want" > "$of/wanted"
        [ "$verb" = events ] && sed -i "s|$of/[^ ]*: ||" "$of/told"
        [ $status = 0 ] && cmp "$of/got" "$of/wanted" && echo "$1 $verb: $(sed -n 's/^\([a-z0-9-]*\): .*(.*)$/\1/p' "$of/told" | tr '\n' ' ')"
    done
    "$comtrade" convert --kind binary "$of/$2" "$of/new" 2> "$of/told"
    "$comtrade" convert --kind binary "$of/want" "$of/same"
    cmp "$of/new.cfg" "$of/same.cfg" && cmp "$of/new.dat" "$of/same.dat" && echo "$1 convert: $(grep -c . "$of/told") lines"
    "$comtrade" check "$of/$2" | sed "s|$folder/||g"
    "$comtrade" show --strict "$of/$2" 2>&1 | sed "s|$folder/||g"
    echo "status ${PIPESTATUS[0]}"
}
made of-1991 "1s/,1999//;$short;10,11s/14.03/03\/14/;\$d" '' "$like91" ''
seen of-1991 in.cfg
made cr-cr-lf 's/\r/\r\r/' '' '' ''
seen cr-cr-lf in.dat
made utf-16 '' '' '' ''
{ printf '\xff\xfe'; sed -b 's/./&\x00/g;s/$/\n/' $base.cfg | sed -b 's/^\x00//' | tr -d '\n' | sed 's/\r\x00/\r\x00\n\x00/g'; } > "$folder/utf-16/in.cfg"
seen utf-16 in
made single '' '' '' ''
rm "$folder/single/in.cfg" "$folder/single/in.dat"
{ printf -- '--- file type: CFG ---\r\n'; sed -b '1s/1999/2013/;$s/$/\n0,0\r\nB,3\r/' $base.cfg; printf -- '--- file type: HDR ---\r\ntold\r\n--- file type: DAT ASCII ---\r\n'; sed -b '$d' $base.dat; } > "$folder/single/in.CFF"
seen single in
seen single in.CFF
# a folder of both; what neither reads
mkdir "$folder/all"
cp "$folder/of-1991/in.cfg" "$folder/all/a.cfg"
cp "$folder/of-1991/in.dat" "$folder/all/a.dat"
cp "$folder/single/in.CFF" "$folder/all/b.cff"
sed '1s/1999/2013/;12s/ASCII/EBCDIC/' $base.cfg > "$folder/all/c.cfg"
cp $base.dat "$folder/all/c.dat"
cp $base.cfg "$folder/all/d.cfg"
sed '2s/1049/high/' $base.dat > "$folder/all/d.dat"
"$comtrade" list "$folder/all" 2>&1 | sed "s|$folder/||g"
"$comtrade" show "$folder/all/c" 2>&1 | sed "s|$folder/||g"
"$comtrade" check "$folder/all/c" 2>&1 | sed "s|$folder/||g"
"$comtrade" show "$folder/all/d" 2>&1 | sed "s|$folder/||g"
printf -- '--- file type: CFG ---\r\n' > "$folder/all/e.cff"
"$comtrade" check "$folder/all/e.cff" 2>&1 | sed "s|$folder/||g"
"$comtrade" show "$folder/all/e.cff" 2>&1 | sed "s|$folder/||g"
"$comtrade" show "$folder/all/f.cff" 2>&1 | sed "s|$folder/||g"
