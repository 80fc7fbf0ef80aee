# options that other cases leave out: what is printed of a part is what is printed of the record that convert makes of it; files that need a
# repair and --strict; texts of another encoding; pictures of all contacts, of a whole long record, and of a size
command -v python3 > /dev/null || { echo "python3 isn't here" >&2; exit 77; }
exec 2>&1
folder=$(mktemp -d)
trap 'rm -r "$folder"' EXIT
cp ../examples/earth-fault/rec1.cfg ../examples/earth-fault/rec1.dat "$folder"
cd "$folder" || exit 1
"$comtrade" convert --kind ascii --from 0 --to 60 --changed rec1 part
head -n 2 part.cfg | tail -n 1 | tr -d '\r'
same() { # same NAME: both files of this name are equal
    cmp "$1.whole" "$1.part" && echo "$1: the same"
}
"$comtrade" csv --from 0 --to 60 --changed rec1 | cut -d, -f2- > csv.whole
"$comtrade" csv part | cut -d, -f2- > csv.part
same csv
"$comtrade" plot --from 0 --to 60 --changed rec1 > plot.whole
"$comtrade" plot part > plot.part
same plot
"$comtrade" page --from 0 --to 60 --changed rec1 > page.whole
"$comtrade" page part > page.part
same page
"$comtrade" measure --json --from 0 --to 60 --changed rec1 | python3 -c 'import json, sys; print(json.load(sys.stdin)["channels"])' > measure.whole
"$comtrade" measure --json --from 0 part | python3 -c 'import json, sys; print(json.load(sys.stdin)["channels"])' > measure.part
same measure
"$comtrade" compare --changed --from 0 --to 60 rec1 rec1 > compare.whole
"$comtrade" compare part rec1 > compare.part
grep -c '<path' compare.whole compare.part | cut -d: -f2 | uniq | wc -l
# lines that end in CR CR LF need a repair
sed 's/\r*$/\r\r/' rec1.cfg > loose.cfg
cp rec1.dat loose.dat
for words in "plot --strict" "page --strict" "measure --strict" "compare --strict loose"; do
    "$comtrade" $words loose > out.strict 2> err.strict
    echo "$words: status $?, $(wc -c < out.strict) bytes, $(grep -c . err.strict) lines"
done
# a station's name in Latin-1
LC_ALL=C sed 's/Northfield/M\xfchle/' rec1.cfg > latin.cfg
cp rec1.dat latin.dat
"$comtrade" events --encoding latin1 latin 2> err | head -n 2 | tail -n 1 | grep -o 'trigger of.*'
"$comtrade" page --encoding latin1 latin 2> err | grep -o 'Mühle' | head -n 1
"$comtrade" compare --encoding latin1 latin latin 2> err | grep -o 'Mühle' | head -n 1
"$comtrade" fault --json --encoding latin1 latin 2> err | grep -o '"station":"Mühle[^"]*"' | head -n 1
# all contacts have bars, and sizes
"$comtrade" plot --all rec1 | grep -o 'Earth fault start' | head -n 1
"$comtrade" compare --all rec1 rec1 | grep -o 'Earth fault start' | head -n 1
"$comtrade" plot --width 600 --height 300 rec1 | grep -o 'width="600" height="300"'
"$comtrade" compare --width 600 --height 300 rec1 rec1 | grep -o 'width="600" height="300"'
# 3 s at 400 Hz: 150 cycles, of which 41 are drawn without --whole
{
    printf '%s\r\n' Long,Bay,1999 1,1A,0D 1,UA,A,,V,1,0,0,-9999,9999,1,1,P 50 1 400,1200 01/07/2024,10:30:00.000000 01/07/2024,10:30:01.000000 ASCII 1
} > long.cfg
python3 -c 'import math
for i in range(1200): print(f"{i + 1},,{round(900 * math.sin(math.pi * i / 4))}", end="\r\n")' > long.dat
for words in "plot" "plot --whole" "compare long" "compare --whole long"; do
    "$comtrade" $words long | grep -o 'from [^;]* since [a-zA-Z]*' | head -n 1
done
