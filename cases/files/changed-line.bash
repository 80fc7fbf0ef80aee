# `tried N TEXT`: the first configuration with line N replaced by TEXT, read beside the first data; prints N, TEXT, what is printed
# and the status. Sourced by cases.
folder=$(mktemp -d)
trap 'rm -r "$folder"' EXIT
tried() {
    local first=files/first.cfg
    { head -n "$(($1 - 1))" "$first"; printf '%b\r\n' "$2"; tail -n "+$(($1 + 1))" "$first"; } > "$folder/cfg"
    got=$("$dfr" read "$folder/cfg" files/first.dat; echo "$?")
    echo "$1 | $2 | ${got//$'\n'/ | }"
}
