# a capture recorded by `dfrd --pcap`: as through `dfrbus`, in one thread and with an operator; dated by the capture; errors, and what came
# before them; set-ups without a plan
. files/dfrd.bash
bay=../crates/dfrbus/data/bay.setup stdin=../crates/dfrbus/stdin
recorded() { # recorded NAME STATUS: what was told, without the words that tell the machine's clock
    echo "$1: $2"; told < "$work/told"; sed 's/^dfrd: end: .*readings/dfrd: end: .. readings/' "$work/said"; ls "$folder"; rm -f "$folder"/*
}
by_dfrd() { "$dfrd" --quiet "$@" "$folder" > "$work/told" 2> "$work/said"; }

# the same records, and the same losses
"$dfrbus" $bay < $stdin 2> /dev/null | by_dfrd --wait --start 1719829800000000 $bay; cp "$work/told" "$work/one"
mkdir "$work/lines"; mv "$folder"/* "$work/lines"
: > "$work/orders"
for words in '' '--wait' "--orders $work/orders"; do
    by_dfrd --pcap --start 1719829800000000 $words $bay < $stdin; echo "$?"
    cmp <(told < "$work/one") <(told < "$work/told") && diff -r "$work/lines" "$folder" && echo "same: ${words%% *}"
    rm "$folder"/*
done

# its own dates, in one thread and with an operator; the sample at 10:30:00.250 comes first, and the fault is at 10:30:02
setup=../examples/bus/setup
sed 's/^go$/&\nclock capture/' $setup > "$work/stamps"
stored() { # stored NAME SETUP SYNCH AHEAD SLOW
    python3 bus/dfrd/capture.py 3 1000 "$3" "$4" "$5" > "$work/pcap"
    by_dfrd --pcap "$2" < "$work/pcap"; recorded "$1" $?
    by_dfrd --pcap --orders "$work/orders" "$2" < "$work/pcap"; ls "$folder" | tail -n 1; rm "$folder"/*
}
stored synchronised $setup 2 0 0
stored 'its clock is behind' $setup 2 -300 0
stored 'its clock is ahead' $setup 2 300 0
stored 'not synchronised' $setup 0 -300 20
stored 'by time stamps' "$work/stamps" 0 -300 20
by_dfrd --pcap --time rate "$work/stamps" < "$work/pcap"; recorded 'by the rate' $?

# captures that are empty or none, cut short, of another link, damaged
head_of() { printf '\xd4\xc3\xb2\xa1\x02\0\x04\0\0\0\0\0\0\0\0\0\0\0\x04\0\x01\0\0\0'; }
refused() { by_dfrd --pcap --wait $bay; recorded "$1" $? | sed '/^start/d'; }
printf '' | refused empty
head_of | head -c 23 | refused 'cut head'
head_of | refused 'only a head'
printf 'scan 1,2,3/\nscan 4,5,6/\n' | refused lines
{ head_of | head -c 20; printf '\x71\0\0\0'; } | refused link
head -c -50 $stdin | refused 'cut packet'
{ cat $stdin; head -c 40 /dev/zero | tr '\0' '\377'; } | refused damaged
sed 's/^stream MU01/stream MU02/; s/^stream 0x4001/stream 0x4002/' $bay > "$work/other"
by_dfrd --pcap "$work/other" < $stdin; recorded 'other streams' $? | sed '/^start/d'

# set-ups without a plan
sed '/^value UA/d' $bay > "$work/few"
sed '/^go/,$d' $bay > "$work/none"
for it in few none; do (cd "$work" && "$dfrd" --pcap $it "$folder" < /dev/null 2>&1; echo "$?"); done
"$dfrd" --pcap --check $bay "$folder" > /dev/null; echo "$?"
