# captures that are empty or none, of another link, in the form pcapng, damaged, and cut short; set-ups without a plan; words
bay=../crates/dfrbus/data/bay.setup
work=$(mktemp -d)
trap 'rm -rf "$work"' EXIT
head_of() { printf '\xd4\xc3\xb2\xa1\x02\0\x04\0\0\0\0\0\0\0\0\0\0\0\x04\0\x01\0\0\0'; }
read_by() { "$dfrbus" "$1" 2>&1; echo "$?"; }
printf '' | read_by $bay
printf 'scan 1,2,3/\nscan 4,5,6/\n' | read_by $bay
printf '\x0a\x0d\x0d\x0a\x1c\0\0\0M<+\x1a\x01\0\0\0\0\0\0\0\0\0\0\0' | read_by $bay
{ head_of | head -c 20; printf '\x71\0\0\0'; } | read_by $bay
{ head_of | head -c 4; printf '\x02\0\x03\0'; head_of | tail -c 16; } | read_by $bay
head_of | head -c 23 | read_by $bay
head_of | read_by $bay
{ head_of; printf '\0\0\0\0\0\0\0\0\x02\0\0\0\x02\0\0\0\x01\x02'; printf '\0\0\0\0\0\0\0\0\x01\0\x04\0\x01\0\x04\0'; } | read_by $bay
{ head_of; printf '\0\0\0\0\0\0\0\0\x40\0\0\0\x40\0\0\0\x01\x02\x03'; } | read_by $bay
sed '/^value UA/d' $bay > "$work/few"
sed 's/^value IB.*/value IB,3,1,1,1/' $bay > "$work/stream"
sed 's/^rate 50/rate 1/' $bay > "$work/rate"
sed '/^go/d' $bay > "$work/none"
for it in few stream rate none gone; do head_of | (cd "$work" && "$dfrbus" $it 2>&1; echo "$?"); done
for words in '' '-h' 'a b'; do "$dfrbus" $words < /dev/null 2>&1 | head -n 1; echo "${PIPESTATUS[0]}"; done
