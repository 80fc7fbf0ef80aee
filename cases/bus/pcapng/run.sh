# one capture in the form pcapng, in pieces of several sizes: sections in both orders of bytes, interfaces with times of several resolutions,
# options, and blocks of other kinds between the packets. The same lines, and the same told, as of the capture of libpcap. Damaged ones name
# their byte
work=$(mktemp -d)
trap 'rm -rf "$work"' EXIT
bay=../crates/dfrbus
cat > "$work/pieces.py" <<'END'
import struct, sys
size, data = int(sys.argv[1]), sys.stdin.buffer.read()
def block(order, kind, body):
    body += bytes(-len(body) % 4)
    length = struct.pack(order + "I", len(body) + 12)
    return struct.pack(order + "I", kind) + length + body + length
def option(order, code, value):
    return struct.pack(order + "HH", code, len(value)) + value + bytes(-len(value) % 4)
base = struct.unpack_from("<I", data, 24)[0]  # times of 10^-12 s need an offset
def section(order, units):
    out = block(order, 0x0A0D0D0A, struct.pack(order + "IHHq", 0x1A2B3C4D, 1, 0, -1) + option(order, 3, b"Linux") + bytes(4))
    for unit in units:
        out += block(order, 1, struct.pack(order + "HHI", 1, 0, 262144) + option(order, 2, b"bay") + option(order, 9, bytes([unit])) +
                     option(order, 14, struct.pack(order + "q", base if unit == 12 else 0)) + bytes(4))
    return out
at, count, out, order, units = 24, 0, b"", "<", []
while at < len(data):
    if count % 100 == 0:
        order = "<>"[count // 100 % 2]
        units = [9, 12, 158, 6, 10][:2 + count // 100 % 4]
        out += section(order, units)
    seconds, nanos, kept, long = struct.unpack_from("<IIII", data, at)
    unit = units[count % len(units)]
    ticks = 10**unit if unit < 128 else 2**(unit - 128)
    when = ((seconds - (base if unit == 12 else 0)) * 10**9 + nanos) * ticks
    when = -(-when // 10**9) if unit == 158 else when // 10**9
    body = struct.pack(order + "IIIII", count % len(units), when >> 32, when & 0xFFFFFFFF, kept, long) + data[at + 16:at + 16 + kept]
    body += bytes(-kept % 4)
    if count % 3 == 0:
        body += option(order, 2, struct.pack(order + "I", 1)) + bytes(4)
    out += block(order, 6, body)
    if count % 7 == 0:
        out += block(order, 5, struct.pack(order + "III", 0, when >> 32, when & 0xFFFFFFFF)) + block(order, 0x40000BAD, bytes(5 * count))
    at, count = at + 16 + kept, count + 1
for i in range(0, len(out), size):
    sys.stdout.buffer.write(out[i:i + size])
    sys.stdout.flush()
END
"$dfrbus" "$bay/data/bay.setup" < "$bay/stdin" > "$work/lines" 2> "$work/said"
for size in 1 7 1000 30000 10000000; do
    python3 "$work/pieces.py" "$size" < "$bay/stdin" | "$dfrbus" "$bay/data/bay.setup" 2> "$work/told" | cmp - "$work/lines" &&
        cmp "$work/told" "$work/said" && echo "$size same"
done
section() { printf '\n\r\r\n\x1c\0\0\0M<+\x1a\x01\0\0\0\xff\xff\xff\xff\xff\xff\xff\xff\x1c\0\0\0'; }
interface() { printf '\x01\0\0\0\x14\0\0\0\x01\0\0\0\0\0\x04\0\x14\0\0\0'; }
packet() { printf '\x06\0\0\0\x24\0\0\0'"$1"'\0\0\0\0\0\0\0\0'"$2"'\x02\0\0\0\x01\x02\0\0'"$3"; } # INTERFACE KEPT END
read_it() { "$dfrbus" "$bay/data/bay.setup" 2>&1 | tail -n 1; }
section | head -c 3 | read_it
section | read_it
{ section | head -c 8; printf 'M<+\x1b\x01\0\0\0'; } | read_it
{ section | head -c 12; printf '\x02\0\0\0'; } | read_it
{ section | head -c 24; printf '\x20\0\0\0'; } | read_it
{ section; printf '\x01\0\0\0\x14\0\0\0\x71\0\0\0'; } | read_it
{ section; printf '\x01\0\0\0\x15\0\0\0\x01\0\0\0'; } | read_it
{ section; printf '\x01\0\0\0\x1c\0\0\0\x01\0\0\0\0\0\x04\0\x09\0\x02\0\x06\0\0\0\x1c\0\0\0'; } | read_it
{ section; printf '\x01\0\0\0\x1c\0\0\0\x01\0\0\0\0\0\x04\0\x01\0\x06\0\x06\0\0\0\x1c\0\0\0'; } | read_it
{ section; for _ in $(seq 257); do interface; done; } | read_it
{ section; interface; packet '\x01\0\0\0' '\x02\0\0\0' '\x24\0\0\0'; } | read_it
{ section; interface; packet '\0\0\0\0' '\x05\0\0\0' '\x24\0\0\0'; } | read_it
{ section; interface; packet '\0\0\0\0' '\x02\0\0\0' '\x28\0\0\0'; } | read_it
{ section; interface; packet '\0\0\0\0' '\x02\0\0\0' '\x24\0\0'; } | read_it
{ section; interface; packet '\0\0\0\0' '\x02\0\0\0' '\x24\0\0\0'; } | read_it
{ section; printf '\x01\0\0\0\x1c\0\0\0\x01\0\0\0\0\0\x04\0\x09\0\x01\0\x14\0\0\0\x1c\0\0\0'; packet '\0\0\0\0' '\x02\0\0\0' '\x24\0\0\0'; } | read_it
{ section; interface; printf '\x06\0\0\0\x24\0\0\0\0\0\0\0\xff\xff\xff\xff\0\0\0\0\x02\0\0\0\x02\0\0\0\x01\x02\0\0\x24\0\0\0'; } | read_it
{ section; interface; printf '\x06\0\0\0\x04\0\x08\0\0\0\0\0'; } | read_it
{ section; interface; printf '\x03\0\0\0\x14\0\0\0\x02\0\0\0\x01\x02\0\0\x14\0\0\0'; } | read_it
{ section; interface; printf '\x02\0\0\0\x14\0\0\0\x02\0\0\0\x01\x02\0\0\x14\0\0\0'; } | read_it
{ section; interface; printf '\xad\x0b\0\0\xfc\xff\xff\xff\0\0\0\0'; head -c 1000 /dev/zero; } | read_it
