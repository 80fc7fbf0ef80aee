# pictures: the trace of five samples, whose points are worked out by hand; gaps; what stands in the example's folder; which channels share
# a panel; contacts that don't change
folder=$(mktemp -d)
trap 'rm -r "$folder"' EXIT
plot() { "$comtrade" plot "$folder/cfg" "$folder/dat"; }
texts() { grep -o '>[^<>]*</text>' | sed 's/^>//; s/<.*//'; }
# times -2 to 2 ms over x 76 to 916; samples 11 to 15, with 5 % of room 10.8 to 15.2, over y 237 down to 87; a dot at each sample
"$comtrade" plot files/first.cfg files/first.dat | grep '^<path class="a" stroke="#de0d49" d=\|stroke-width="5"'
# three runs of the first channel and one of the second; the row without a reading is a gap
"$comtrade" plot files/gaps.cfg files/gaps.dat > "$folder/gaps"
grep '^<path class="[au]" stroke="#[0-9a-f]*" d=' "$folder/gaps" | tr M '\n' | grep -c '^[0-9]'
grep -o 'font-size="15">[^<]*' "$folder/gaps"
texts < "$folder/gaps" | grep gap
# the example: the breaker is closed until 170 ms after the first row, the trip lasts from 122.916 to 209.375 ms; the trigger is 50 of 250 ms
"$comtrade" plot ../examples/earth-fault/rec1.cfg ../examples/earth-fault/rec1.dat > "$folder/svg"
cmp "$folder/svg" ../examples/earth-fault/record.svg && echo same
head -n 1 "$folder/svg" | cut -c 1-100
tail -n 1 "$folder/svg"
grep -c '<path class="[abcn]" stroke="#[0-9a-f]*" d=' "$folder/svg"
grep dasharray=.4 "$folder/svg"
grep -E '^<path class="[ko]" ' "$folder/svg"
texts < "$folder/svg" | LC_ALL=C sort | uniq -c
# six channels of a unit, four at most in a panel, each phase once; a long name in two lines
{
    printf 's,d,1999\r\n6,6A,0D\r\n'
    for phase in A B C A N A; do
        n=$((${n:-0} + 1))
        printf '%s,VOLTAGE OF BUSBAR SECTION %s OF THE STATION,%s,,kV,1,0,0,-32767,32767,1,1,P\r\n' $n $n $phase
    done
    printf '50\r\n1\r\n1000,2\r\n01/07/2024,10:30:00.000000\r\n01/07/2024,10:30:00.001000\r\nASCII\r\n1\r\n'
} > "$folder/cfg"
printf '1,0,1,2,3,4,5,6\r\n2,1000,2,3,4,5,6,7\r\n' > "$folder/dat"
plot | texts | grep -E 'kV, primary|VOLT|STATION'
# 96 contacts of which one changes; an analogue channel without readings beside one that has the same at each row
{
    printf 's,d,1999\r\n98,2A,96D\r\n1,U,,,V,1,0,0,-9,9,1,1,P\r\n2,T,,,degC,1,0,0,-9,9,1,1,P\r\n'
    for n in $(seq 96); do printf '%s,Input %s,,,0\r\n' "$n" "$n"; done
    printf '50\r\n1\r\n1000,2\r\n01/07/2024,10:30:00.000000\r\n01/07/2024,10:30:00.001000\r\nASCII\r\n1\r\n'
} > "$folder/cfg"
for n in 1 2; do
    printf '%s,,7,' $n
    for contact in $(seq 96); do printf ',%s' $((contact % 3 == 0 || contact == 5 && n == 2)); done
    printf '\r\n'
done > "$folder/dat"
plot | texts | grep -E 'Input|unchanged|readings|peak 7'
