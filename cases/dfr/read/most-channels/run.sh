# 999,999 channels, the most that are read, all of one kind and of both, and one more
folder=$(mktemp -d)
trap 'rm -r "$folder"' EXIT
tried() {
    {
        printf 'Bay 1,DFR,1999\n%d,%dA,%dD\n' "$(($1 + $2))" "$1" "$2"
        seq "$1" | sed 's/$/,,,,,1,,,0,1,,,P/'
        seq "$2" | sed 's/$/,,,,/'
        sed -n '4,10s/,5\r$/,1\r/;4,10p' files/first.cfg
    } > "$folder/cfg"
    awk -v n="$(($1 + $2))" 'BEGIN { printf "1,0"; while (n-- > 0) printf ",1" }' > "$folder/dat"
    got=$("$dfr" read "$folder/cfg" "$folder/dat"; echo "$?")
    echo "$1 | $2 | ${got//$'\n'/ | }"
}
tried 0 999999
tried 300000 699999
tried 1 999999
