"$examples" write
# into files: the same bytes
room=$(mktemp -d)
"$examples" write "$room/record"
"$examples" write | cmp - <(cat "$room/record.cfg" "$room/record.dat")
rm -r "$room"
