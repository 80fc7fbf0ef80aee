# an operator's `stop` ends the input as its end would, also while nothing comes: the open record is written, and what has not come
# whole is dropped, of lines and of frames
. files/dfrd.bash
stopped() { # stopped NAME TEXT OPTION..
    local name=$1 text=$2
    shift 2
    mkdir "$folder.$name"
    mkfifo "$work/$name.orders" "$work/$name.scans"
    "$dfrd" --quiet --start 0 --orders "$work/$name.orders" "$@" dfr/replay/first/in "$folder.$name" < "$work/$name.scans" > "$work/$name.told" &
    exec 3> "$work/$name.scans"
    printf "$text" >&3
    until_told "$work/$name.told" '^[^ ]* start'
    sleep 0.5
    echo trigger > "$work/$name.orders"
    until_told "$work/$name.told" 'opened 1'
    printf 'stop now\nstop\n' > "$work/$name.orders"
    wait $!
    echo "status $?"
    exec 3>&-
    told < "$work/$name.told"
    tr -d '\r\032' < "$folder.$name"/*.dat
}
stopped lines 'scan 1/\nscan 2/\nscan 345'
stopped frames '\1\0\2\0\3' --raw
