# the first script with a set-up line that can be read and isn't valid: line, text, what is printed, status
tried() {
    got=$({ head -n "$(($1 - 1))" dfr/replay/first/in; printf '%s\n' "$2"; tail -n "+$(($1 + 1))" dfr/replay/first/in; } | "$dfr"; echo "$?")
    echo "$1 | $2 | ${got//$'\n'/ | }"
}
tried 1 'station a,b'
tried 1 'station Bay 1234567890123456789012345678901234567890123456789012345678901'
tried 2 'device é'
tried 3 'analog IA,ABC,,A,1,0,0,-32767,32767,1,1,P'
tried 3 'analog IA,A,,,1,0,0,-32767,32767,1,1,P'
tried 3 '# no channel'
tried 3 'analog IA,A,,A,1,0,0,1,0,1,1,P'
tried 3 'analog IA,A,,A,1,0,0,0,40000,1,1,P'
tried 3 'analog IA,A,,A,1,0,0,-32768,32767,1,1,P'
tried 5 'rate 1000001'
tried 6 'start -1'
tried 6 'start 253402300800000000'
tried 3 'analog IA,A,,A,1,0,0,-2147483648,2147483647,1,1,P'
tried 7 'limits 0,1,1000001,1'
tried 7 'limits 2,2,5,0'
tried 7 'limits 2,4294967295,6,1'
