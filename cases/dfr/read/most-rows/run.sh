# 1,000,000 rows in each form, and one row less than the head says
folder=$(mktemp -d)
trap 'rm -r "$folder"' EXIT
tried() {
    sed "s/,5\r$/,$2\r/;s/^ASCII/$1/" files/first.cfg > "$folder/cfg"
    got=$("$dfr" read "$folder/cfg" "$folder/$1"; echo "$?")
    echo "$1 | $2 | ${got//$'\n'/ | }"
}
awk 'BEGIN { for (i = 0; i < 1000000; i++) print "9,,5" }' > "$folder/ascii"
awk 'BEGIN { for (i = 0; i < 1000000; i++) print 123456789 }' > "$folder/binary"
for kind in ascii binary; do
    tried "$kind" 1000000
    tried "$kind" 1000001
done
