# a set-up with all its faults, which are mended one by one in the order of their tests
lines=('rules edge 0 rise' 'limits 2,2,4,65' 'start -1' 'rate 0' '# no channel' 'station a,b' 'device DFR' 'freq 50' 'go' 'take')
tried() {
    lines[$1]=$2
    got=$(printf '%s\n' "${lines[@]}" | "$dfr"; echo "$?")
    echo "$2 | ${got//$'\n'/ | }"
}
tried 5 'station a,b'
tried 5 'station Bay 1'
tried 4 'analog IA,A,,A,1,0,0,1,0,1,1,P'
tried 4 'analog IA,A,,A,1,0,0,-32767,32767,1,1,P'
tried 3 'rate 1000'
tried 2 'start 0'
tried 1 'limits 2,2,5,65'
tried 1 'limits 2,2,5,64'
tried 0 'rules level 0 over 1'
