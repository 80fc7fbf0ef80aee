# what a header says of its record's instants: those of a stored capture are those of the streams' global clock if they are synchronised to one, else
# those of the capture, unless they are by the rate
. files/dfrd.bash
setup=../examples/bus/setup
sed 's/^go$/&\nclock capture/' $setup > "$work/stamps"
instants() { # instants NAME SETUP SYNCH WORD..
    python3 bus/dfrd/capture.py 3 1000 "$3" 0 0 > "$work/pcap"
    "$dfrd" --quiet --hdr --pcap "${@:4}" "$2" "$folder" < "$work/pcap" > "$work/told" 2>&1
    echo "$1: $?"
    sed -n 's/\r$//; /^Instants/p' "$folder"/*.hdr
    rm "$folder"/*
}
instants synchronised $setup 2
instants 'not synchronised' $setup 0
instants 'by time stamps' "$work/stamps" 0
instants 'by the rate' $setup 2 --time rate
