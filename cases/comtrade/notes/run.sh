# notes of pairs that have no fault: flat tops at the ends of ranges, and texts that aren't ASCII; the status stays 0
folder=$(mktemp -d)
trap 'rm -r "$folder"' EXIT
noted() { # the ranges of two channels, the rows' samples
    printf 'Bay 1,%b,1999\r\n2,2A,0D\r\n1,IA,A,,A,1,0,0,%s,1,1,P\r\n2,IB,B,%b,A,1,0,0,%s,1,1,P\r\n' "$1" "$2" "$1" "$3" > "$folder/p.cfg"
    printf '50\r\n1\r\n1000,%d\r\n01/01/2024,00:00:00.000000\r\n01/01/2024,00:00:00.000000\r\nASCII\r\n1\r\n' $(($# - 3)) >> "$folder/p.cfg"
    local row=0 samples
    for samples in "${@:4}"; do
        row=$((row + 1))
        echo "$row,$((row * 1000 - 1000)),$samples"
    done > "$folder/p.dat"
    echo "== ${*:2}"
    "$comtrade" check "$folder/p" | sed "s|$folder/||g"
    echo "status ${PIPESTATUS[0]}"
}
# two in a row are none, at either end, nor three that lie below it, nor two at each end; three are one, and so are four
noted DFR -10,10 -10,10 10,9 10,9 3,9 -10,3 -10,3 10,3 10,3
noted DFR -10,10 -10,10 1,1 10,1 10,1 10,1 2,2
noted DFR -10,10 -10,10 1,-10 10,-10 10,-10 10,-10 10,2
# the first in the order of the rows is named: that of the second channel; each run counts once
noted DFR -10,10 -9,9 1,9 10,9 10,9 10,1 1,-9 1,-9 1,-9 1,-9
# a row that misses the reading ends a run, and so does the other end; a channel with one value alone has none; turned ranges have ends too
noted DFR -10,10 7,7 10,7 10,7 ,7 10,7 10,7 -10,7
noted DFR 10,-10 -10,10 10,0 10,0 10,0 0,0
# texts that aren't ASCII: the lines of the names and of a channel
noted '\xc3\x9c' -10,10 -10,10 0,0
