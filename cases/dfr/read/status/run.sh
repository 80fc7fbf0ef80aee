# a pair with a status channel, with one line of it replaced: file, line, text, what is printed, status
folder=$(mktemp -d)
trap 'rm -r "$folder"' EXIT
printf '%s\r\n' 'Bay 1,DFR,1999' '2,1A,1D' '1,IA,A,,A,1,0,0,-32767,32767,1,1,P' '1,C,,,0' '50' '1' '1000,2' \
    '01/01/1970,00:00:00.001000' '01/01/1970,00:00:00.001000' 'ASCII' '1' > "$folder/cfg"
printf '%s\r\n' '1,0,9,1' '2,1000,0,0' > "$folder/dat"
tried() {
    mkdir "$folder/tried"
    cp "$folder/cfg" "$folder/dat" "$folder/tried"
    { head -n "$(($2 - 1))" "$folder/$1"; printf '%s\r\n' "$3"; tail -n "+$(($2 + 1))" "$folder/$1"; } > "$folder/tried/$1"
    got=$("$dfr" read "$folder/tried/cfg" "$folder/tried/dat"; echo "$?")
    echo "$1 | $2 | $3 | ${got//$'\n'/ | }"
    rm -r "$folder/tried"
}
tried cfg 4 '1,C,,,0'
tried cfg 4 '01, a b ,x,y, '
tried cfg 4 '1,C,,'
tried cfg 4 '1,C,0'
tried cfg 4 '1,C,,,0,'
tried cfg 4 'x,C,,,0'
tried cfg 4 '1,C,,,2'
tried cfg 4 '2,C,,,0'
tried cfg 4 '2,C,,,2'
tried cfg 2 '1,1A,1D'
tried cfg 2 '1,1A,0D'
tried cfg 2 '2,0A,2D'
tried dat 2 '2,,,+01'
tried dat 2 '2,1000,0,-0'
tried dat 2 '2,1000,0'
tried dat 2 '2,1000,0,'
tried dat 2 '2,1000,0,2'
tried dat 2 '2,1000,x,2'
tried dat 2 '2,1000,0,0,0'
