# records of 2013 of one moment, in files of different time codes: events, list, fault and compare put them together; one record alone,
# and one without a time code, keep the instants of its file
folder=$(mktemp -d)
trap 'rm -r "$folder"' EXIT
cd "$folder" || exit 1
record() { # name; the instant of its first row and trigger; its last lines
    printf '%s,DFR,2013\r\n2,1A,1D\r\n1,IA,,,A,1,0,0,-99,99,1,1,P\r\n1,T,,,0\r\n50\r\n1\r\n1000,3\r\n' "$1" > "$1.cfg"
    printf '%s\r\n%s\r\nASCII\r\n1\r\n' "$2" "$2" >> "$1.cfg"
    [ -z "$3" ] || printf '%s\r\nB,3\r\n' "$3" >> "$1.cfg"
    printf '1,0,1,0\r\n2,1000,2,0\r\n3,2000,3,1\r\n' > "$1.dat"
}
record a 01/02/2024,00:30:00.000000 0,0
record b 01/02/2024,08:30:00.000000 +8,+8
record c 31/01/2024,19:00:00.000000 -5h30,x
record d 01/02/2024,00:30:00.000000 0,x
record e 01/02/2024,08:30:00.000000 x,x
record f 01/02/2024,14:29:00.000000 +13:59,0
for verb in events list fault; do
    echo "== $verb"
    "$comtrade" $verb a.cfg b.cfg c.cfg d.cfg e.cfg f.cfg > out 2> err
    grep -o '2024-[0-9-]* [0-9:.]*' out | sort | uniq -c
    sed -n 's/^\(.\.cfg: time-code: .*\)/\1/p' err
done
echo '== the first is another, or none is'
"$comtrade" events b.cfg a.cfg 2>&1 | grep -o '2024-[0-9-]* [0-9:.]*\|^.*time-code: .*'
"$comtrade" events b.cfg 2>&1 | grep -o '2024-[0-9-]* [0-9:.]*\|^.*time-code: .*'
"$comtrade" show b.cfg 2> err | grep -o '2024-[0-9-]* [0-9:.]*'
"$comtrade" compare c.cfg b.cfg 2>&1 > out | grep time-code
