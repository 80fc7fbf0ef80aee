# 256 channels of each kind with the longest texts, and 32 rules of which the last one fires; the record in both forms; one channel more
# of a kind
folder=$(mktemp -d)
trap 'rm -r "$folder"' EXIT
long=$(printf 'x%.0s' {1..64})
analog="$long,AB,$long,${long:32},1,0,0,-32767,32767,1,1,P"
status="$long,AB,$long,0"
readings() { seq "$1" "$(($1 + 255))" | paste -sd, -; }
bits() { awk -v bit="$1" 'BEGIN { for (i = 1; i < 256; i++) printf "%d,", bit; print bit }'; }
{
    printf 'station %s\ndevice %s\n' "$long" "$long"
    for _ in {1..256}; do printf 'analog %s\nstatus %s\n' "$analog" "$status"; done
    printf '%s\n' 'freq 50' 'rate 1000' 'start 0' 'limits 1,2,4,1'
    printf 'rules %sedge 255 rise\n' "$(printf 'level 255 over 32767;%.0s' {1..31})"
    echo go
    for k in 0 1 2 3; do echo "scan $(readings $((100 * k)))/$(bits $((k % 2)))"; done
    echo take
} > "$folder/script"
{
    printf '%s,%s,1999\r\n512,256A,256D\r\n' "$long" "$long"
    for i in {1..256}; do printf '%d,%s\r\n' "$i" "$analog"; done
    for i in {1..256}; do printf '%d,%s\r\n' "$i" "$status"; done
    printf '%s\r\n' 50 1 1000,4 01/01/1970,00:00:00.000000 01/01/1970,00:00:00.001000
} > "$folder/head"
for k in 0 1 2 3; do printf '%d,%d,%s,%s\r\n' "$((k + 1))" "$((1000 * k))" "$(readings $((100 * k)))" "$(bits $((k % 2)))"; done > "$folder/ascii"
printf '\032' >> "$folder/ascii"
LC_ALL=C awk 'BEGIN {
    for (k = 0; k < 4; k++) {
        printf "%c%c%c%c%c%c%c%c", k + 1, 0, 0, 0, 1000 * k % 256, int(1000 * k / 256), 0, 0
        for (i = 0; i < 256; i++) printf "%c%c", (100 * k + i) % 256, int((100 * k + i) / 256)
        for (i = 0; i < 32; i++) printf "%c", k % 2 * 255
    }
}' > "$folder/binary"
for kind in ascii binary; do
    { cat "$folder/head"; printf '%s\r\n' "${kind^^}" 1; } > "$folder/cfg"
    {
        printf '%s\n' 'scan 0' 'scan 1 opened 1' 'scan 2' 'scan 3 at-limit 1 closed 1' 'record 1 0 1 3 rule 31'
        echo "cfg $(wc -c < "$folder/cfg")"
        cat "$folder/cfg"
        echo "dat $(wc -c < "$folder/$kind")"
        cat "$folder/$kind"
        echo
    } > "$folder/expected"
    "$dfr" replay --kind "$kind" < "$folder/script" > "$folder/printed"
    echo "$kind $? $(cmp "$folder/printed" "$folder/expected" 2>&1 && echo same)"
    "$dfr" read "$folder/cfg" "$folder/$kind"
done
for kind in analog status; do
    awk -v kind="$kind" '$1 == kind && !once++ { print } { print }' "$folder/script" | "$dfr"
    echo "$kind $?"
done
