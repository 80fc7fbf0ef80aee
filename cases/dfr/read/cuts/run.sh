# the first files cut after each number of bytes: what is cut, how many bytes are left, what is printed, status
folder=$(mktemp -d)
trap 'rm -r "$folder"' EXIT
printed() {
    got=$("$dfr" read "$1" "$2"; echo "$?")
    echo "${got//$'\n'/ | }"
}
# numbers with the same text as one line, from the first to the last of them
ranges() {
    awk -v name="$1" '
        function put() { if (NR > 1) printf "%s | %s%s | %s\n", name, first, first == last ? "" : "-" last, text }
        { number = $1; sub(/^[0-9]+ /, "") }
        NR == 1 || $0 != text { put(); first = number; text = $0 }
        { last = number }
        END { NR++; put() }'
}
for bytes in {0..142}; do
    head -c "$bytes" files/first.cfg > "$folder/cfg"
    echo "$bytes $(printed "$folder/cfg" files/first.dat)"
done | ranges cfg
for bytes in {0..53}; do
    head -c "$bytes" files/first.dat > "$folder/dat"
    echo "$bytes $(printed files/first.cfg "$folder/dat")"
done | ranges dat
{ cat files/binary.dat; printf '\0'; } > "$folder/longer"
for bytes in {0..51}; do
    head -c "$bytes" "$folder/longer" > "$folder/dat"
    echo "$bytes $(printed files/binary.cfg "$folder/dat")"
done | ranges binary
# the configuration is read before the data
: > "$folder/cfg"
: > "$folder/dat"
echo "both | 0 | $(printed "$folder/cfg" "$folder/dat")"
