# the first fault of a pair in words: the first configuration with one line replaced, then other pairs, with the status of each
folder=$(mktemp -d)
trap 'rm -r "$folder"' EXIT
checked() {
    "$comtrade" check "$@" | sed "s|$folder/||"
    echo "status ${PIPESTATUS[0]}"
}
tried() {
    { head -n "$(($1 - 1))" files/first.cfg; printf '%b\r\n' "$2"; tail -n "+$(($1 + 1))" files/first.cfg; } > "$folder/cfg"
    checked "$folder/cfg" files/first.dat
}
rows() {
    printf '%b' "$1" > "$folder/dat"
    checked files/first.cfg "$folder/dat"
}
. <(grep '^tried' dfr/read/cfg-faults/run.sh)
tried 1 'Bay\0033[31m,DFR,\0033[2J'
# counts that don't agree with the lines: a rate too many, a channel too few, one too many, one of the other kind, no frequency
tried 5 '1\r\n500,3'
tried 3 "$(sed -n '3{s/\r//;p}' files/first.cfg)\r\n2,IB,B,,A,1,0,0,-32767,32767,1,1,P"
tried 2 '2,2A,0D'
sed '2s/1,1A/2,2A/; 4s/.*/1,Trip,,,0\r\n&/' files/first.cfg > "$folder/cfg"
checked "$folder/cfg" files/first.dat
sed 4d files/first.cfg > "$folder/cfg"
checked "$folder/cfg" files/first.dat
checked files/first.cfg files/first.dat
checked files/lenient.cfg files/binary.dat
checked files/counts.cfg files/first.dat
checked /dev/null files/first.dat
checked files/first.cfg files/cut.dat
checked files/first.cfg /dev/null
checked files/binary.cfg files/first.dat
checked files/gaps.cfg files/gaps.dat
rows '1,0,11\n2,1000\n'
rows '1,0,11\n2,1000,100000\n'
rows '1,0,x111111111111111111111111111111111111111111111111111111111111\n'
rows 'x,0,11\n'
rows '1,-1,11\n'
rows '1,0,1\n2,0,2\n3,0,3\n4,0,4\n5,0,5\n6,0,6\n'
sed '1s/,0,1$/,2,1/' files/gaps.dat > "$folder/dat"
checked files/gaps.cfg "$folder/dat"
sed '1s/,0,1$/,0,2/' files/gaps.dat > "$folder/dat"
checked files/gaps.cfg "$folder/dat"
