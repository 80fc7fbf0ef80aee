# the first data with one line replaced, beside the first configuration: line, text, what is printed, status
folder=$(mktemp -d)
trap 'rm -r "$folder"' EXIT
tried() {
    local first=files/first.dat
    { head -n "$(($1 - 1))" "$first"; printf '%b\r\n' "$2"; tail -n "+$(($1 + 1))" "$first"; } > "$folder/dat"
    got=$("$dfr" read files/first.cfg "$folder/dat"; echo "$?")
    echo "$1 | $2 | ${got//$'\n'/ | }"
}
tried 2 '2,1000'
tried 2 '2,1000,12,'
tried 2 ''
tried 2 'x,1000,12'
tried 2 ',1000,12'
tried 2 '-1,1000,12'
tried 2 '10000000000,1000,12'
tried 2 '2,x,12'
tried 2 '2,1000.5,12'
tried 2 '2,10000000000,12'
tried 2 '2,1000,x'
tried 2 '2,1000,1.0'
tried 2 '2,1000,100000'
tried 2 '2,1000,-100000'
tried 2 'x,x,x'
tried 3 '\x1a'
tried 5 '5,4000,15\r\n6,5000,16'
tried 5 '5,4000,15\r\n6,5000'
tried 5 '5,4000,15\r\n\r\n6,5000,16'
tried 2 '0,9999999999,-99999'
tried 2 '9999999999,,'
tried 2 ' +02\t, 01000 ,+99999 '
tried 5 '5,4000,15\r\n \t\r\n\n'
tried 5 '5,4000,15\x1ax'
