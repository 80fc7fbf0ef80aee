# 999 rates, each with an end of its own, beside 999 rows: as they are, with the last end below the one before, with one end more than
# the rows, and with 1,000 rates; both kinds
folder=$(mktemp -d)
trap 'rm -r "$folder"' EXIT
awk 'BEGIN { for (i = 1; i <= 999; i++) printf "%d,,%d\r\n", i, i % 100 }' > "$folder/ascii"
LC_ALL=C awk 'BEGIN { for (i = 1; i <= 999; i++) printf "%c%c%c%c%c%c%c%c%c%c", i % 256, int(i / 256), 0, 0, 255, 255, 255, 255, i % 100, 0 }' > "$folder/binary"
tried() {
    local kind=$1 count=$2 last=$3
    {
        head -n 4 files/first.cfg
        echo "$count"
        seq 998 | sed 's/.*/&,&/'
        seq 999 "$count" | sed "s/.*/1000,$last/"
        sed -n '7,8p' files/first.cfg
        echo "$kind"
        echo 1
    } > "$folder/cfg"
    got=$("$dfr" read "$folder/cfg" "$folder/$kind"; echo "$?")
    echo "$kind | $count | $last | ${got//$'\n'/ | }"
}
for kind in ascii binary; do
    tried "$kind" 999 999
    tried "$kind" 999 997
    tried "$kind" 999 1000
    tried "$kind" 1000 999
done
