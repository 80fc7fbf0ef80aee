# files with several rates: from the last row of a rate to the first row of the next it is an interval of the old rate,
# or of the new rate if the stamps of all rows show that
folder=$(mktemp -d)
trap 'rm -r "$folder"' EXIT
cfg=comtrade/rates-border/pair.cfg
# name, cfg and dat: notes, times, what `import` writes, and whether the times of that are the same
tried() {
    echo "== $1"
    "$comtrade" check "$2" "$3" | sed "s|$folder/||g"
    "$comtrade" show "$2" "$3" 2>&1 | sed "s|$folder/||g" | grep '^note\|^data'
    "$comtrade" csv "$2" "$3" | tee "$folder/csv" | cut -d, -f1-3
    "$comtrade" import "$2" "$3" "$folder/out" 2>&1 | sed "s|$folder/||g"
    tr -d '\032' < "$folder/out.dat" | cut -d, -f1,2
    "$comtrade" check "$folder/out.cfg" "$folder/out.dat" | sed "s|$folder/||g"
    "$comtrade" csv "$folder/out.cfg" "$folder/out.dat" | cmp - "$folder/csv"
    rm "$folder/out.cfg" "$folder/out.dat"
}
changed() { # name, edits of the cfg and of new.dat
    sed -b -e "$2" $cfg > "$folder/$1.cfg"
    sed -b -e "$3" comtrade/rates-border/new.dat > "$folder/$1.dat"
    tried "$1" "$folder/$1.cfg" "$folder/$1.dat"
}
tried old $cfg comtrade/rates-border/old.dat
tried new $cfg comtrade/rates-border/new.dat
# stamps in half microseconds
changed timemult '$s/1/0.5/' 's/,20000,/,40000,/;s/,20200,/,40400,/;s/,20400,/,40800,/'
# the stamps fit neither: the border lies between both, a row has no stamp, another row is off by more than half an interval
changed between '' '3s/20200/30000/;4s/20400/30200/'
changed missing '' '2s/20000//'
changed off '' '4s/20400/20700/'
# no stamps at all, and no rates
changed without '' 's/,[0-9]*,/,,/'
# 50, 5000 and 50 rows a second: both borders by the new rate; the second by the old one, so that both are
three='5s/2/3/;7s/$/\n50,6\r/'
changed both "$three" '4s/$/\n5,40400,5\r\n6,60400,6\r/'
changed mixed "$three" '4s/$/\n5,20600,5\r\n6,40600,6\r/'
# a part that begins after the border
"$comtrade" csv --from 'row 3' $cfg comtrade/rates-border/new.dat
"$comtrade" convert --kind ascii --from 'row 3' $cfg comtrade/rates-border/new.dat "$folder/part"
"$comtrade" csv "$folder/part.cfg" "$folder/part.dat"
# `import` keeps stamps in nanoseconds as microseconds
sed -b '2,4s/00,/00000,/' comtrade/rates-border/new.dat > "$folder/nanos.dat"
"$comtrade" import $cfg "$folder/nanos.dat" "$folder/of-nanos"
tr -d '\032' < "$folder/of-nanos.dat" | cut -d, -f1,2
"$comtrade" csv "$folder/of-nanos.cfg" "$folder/of-nanos.dat" | cut -d, -f1-3
