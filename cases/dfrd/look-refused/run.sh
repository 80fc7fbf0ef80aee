# captures that are none, of another link, in the form pcapng, and cut short; words that don't go together
. files/dfrd.bash
head_of() { printf '\xd4\xc3\xb2\xa1\x02\0\x04\0\0\0\0\0\0\0\0\0\0\0\x04\0'; }
looked() { "$dfrd" --pcap --look 2>&1 | grep -v '^# A set-up\|^# assumed\|^#$' | head -n "$1"; echo "${PIPESTATUS[0]}"; }
printf '' | looked 1
printf 'scan 1,2/\nscan 3,4/\nscan 5,6/\n' | looked 1
printf '\x0a\x0d\x0d\x0a\x1c\0\0\0M<+\x1a\x01\0\0\0' | looked 1
{ head_of; printf '\x71\0\0\0'; } | looked 1
{ head_of; printf '\x01\0\0\0'; printf '\0\0\0\0\0\0\0\0\x40\0\0\0\x40\0\0\0\x01\x02\x03'; } | looked 4
{ head_of; printf '\x01\0\0\0'; } | looked 3
for words in '--pcap' '--look' '--pcap --look setup dir' '--pcap --raw setup dir' '--pcap --frames counted setup dir' '--look setup dir' '--pcap --pcap'; do
    "$dfrd" $words < /dev/null > /dev/null 2> "$work/err"
    echo "$? $(grep -c '^error' "$work/err")"
done
