# what a pair reads to, written again by `comtrade convert --strict`: a channel's numbers, rows in other spellings, files cut at their ends; and
# rows that begin well
folder=$(mktemp -d)
trap 'rm -r "$folder"' EXIT
again() {
    rm -f "$folder"/again.*
    "$comtrade" convert --strict --kind ascii "$1" "$2" "$folder/again" || echo "status $?"
}
line() { sed -n "$2p" "$folder/again.$1" | tr -d '\r'; }
same() { cmp "$folder/again.cfg" files/first.cfg && cmp "$folder/again.dat" files/first.dat && echo same; }

channel() {
    sed "3s/.*/$1\r/" files/first.cfg > "$folder/cfg"
    again "$folder/cfg" files/first.dat
    line cfg 3
}
scaled() { channel "1,IA,A,,A,$1,0,0,-32767,32767,1,1,P"; }
zeros() { printf '0%.0s' $(seq "$1"); }
channel '1,IA,A,,A,1,0,0,-32767,32767,,,P'
for a in 1.5E-3 1.50 2E3 .5 5. -0.0 4.76837158203125E-07 0E99 0E99999999999999999999 0.1E36 +0 999999999999999999999999999999999999 \
    -999999999999999999999999999999999999; do scaled "$a"; done
scaled "$(zeros 4096)1"
scaled "0.$(zeros 81)1E2"

# one analogue channel, two contacts, one row
printf '%s\r\n' 'Bay 1,DFR,1999' '3,1A,2D' '1,IA,A,,A,1,0,0,-32767,32767,1,1,P' '1,CB,,,0' '2,CC,,,0' '50' '1' '1000,1' \
    '01/01/1970,00:00:00.001000' '01/01/1970,00:00:00.001000' 'ASCII' '1' > "$folder/contacts"
row() {
    printf '%b' "$1" > "$folder/dat"
    again "$folder/contacts" "$folder/dat"
    echo "$1 | $(line dat 1)"
}
row '7,1000,-12,1,0'
row '007,1000,-12,1,0\r\n'
row '7,1000,-12,1, 0'
row '7,1000,-12,1,00'
row '7,1000,-12,01,0'
row '7,1000, -12,1,0'
row '7,1000,-000000000012,1,0'
row '7,+1000,-12,1,0'
row ' 7,1000,-12,1,0'
refused() {
    printf '%b' "$1" > "$folder/dat"
    got=$("$dfr" read "$folder/contacts" "$folder/dat"; echo "$?")
    echo "$1 | ${got//$'\n'/ | }"
}
refused '10000000000,1000,-12,1,0'
refused '-7,1000,-12,1,0'
refused '7,-1000,-12,1,0'
refused '7,1000,-100000,1,0'
refused '7,1000,-12,2,0'
refused '7,1000,-12,1,'
refused '7,1000,-12,1,0,'
refused '7,1000,-12,1'
refused '7,1000'

# BINARY: neither stamp nor value; the bits of no channel are set
sed -i 's/^ASCII/BINARY/' "$folder/contacts"
row '\x07\0\0\0\xFF\xFF\xFF\xFF\0\x80\xFD\xFF'

third() {
    sed "3s/.*/$1\r/" files/first.dat > "$folder/dat"
    again files/first.cfg "$folder/dat"
    echo "$1 | $(line dat 3)"
}
third '3,2000,'
third '3,2000,+99999'
third '3,,12'

for bytes in 48 49 50 51 52 53; do
    head -c "$bytes" files/first.dat > "$folder/dat"
    again files/first.cfg "$folder/dat"
    echo "$bytes | $(line dat 5)"
done
for bytes in 140 141 142; do
    head -c "$bytes" files/first.cfg > "$folder/cfg"
    again "$folder/cfg" files/first.dat
    same
done
tr -d '\r\032' < files/first.dat > "$folder/dat"
again files/first.cfg "$folder/dat"
same
truncate -s -1 "$folder/dat"
again files/first.cfg "$folder/dat"
same
again files/binary.cfg files/binary.dat
same
