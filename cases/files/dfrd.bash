# helps the cases of `dfrd`: a folder of records, gone in the end; lines without their instant, but for those of a shelf of one, which
# is full for the moment in which a record waits to be written; frames of a line's numbers
export LC_ALL=C
work=$(mktemp -d)
folder=$work/records
mkdir "$folder"
trap 'rm -rf "$work"' EXIT
names() { (cd "$folder" && printf '%s\n' *); }
told() { cut -d" " -f2- | grep -v "^shelf" | sed "s/ clock [-+][0-9.]*\( offset [-+][0-9.]*\( drift [-+][0-9.]*\)\?\)\?//"; }
# each line `READINGS/GROUPS` of numbers becomes a frame of them, two bytes each
frames() { python3 -c '
import struct, sys
for line in sys.stdin:
    numbers = [int(n) & 0xFFFF for n in line.replace("/", " ").split()]
    sys.stdout.buffer.write(struct.pack("<%dH" % len(numbers), *numbers))'; }
# waits until a file has a line like this, 20 seconds at most
until_told() { for _ in $(seq 400); do grep -q "$2" "$1" && return; sleep 0.05; done; echo "not told: $2"; }
