# one capture in pieces of several sizes, in both orders of bytes, with fractions in both units: the same lines, and the same told. `out`
# has what the crate's `stdout` counts, which a model in Python made (`bench/capture.py example`)
work=$(mktemp -d)
trap 'rm -rf "$work"' EXIT
bay=../crates/dfrbus
cat > "$work/pieces.py" <<'END'
import struct, sys, time
order, unit, size = sys.argv[1], int(sys.argv[2]), int(sys.argv[3])
data = sys.stdin.buffer.read()
out = struct.pack(order + "IHHiIII", 0xA1B23C4D if unit == 1 else 0xA1B2C3D4, 2, 4, 0, 0, 262144, 1)
at = 24
while at < len(data):
    seconds, nanos, kept, long = struct.unpack_from("<IIII", data, at)
    out += struct.pack(order + "IIII", seconds, nanos // unit, kept, long) + data[at + 16:at + 16 + kept]
    at += 16 + kept
for i in range(0, len(out), size):
    sys.stdout.buffer.write(out[i:i + size])
    sys.stdout.flush()
END
"$dfrbus" "$bay/data/bay.setup" < "$bay/stdin" > "$work/lines" 2> "$work/said"
echo "$? $(cmp "$work/lines" "$bay/stdout" && echo same)"
grep -c ^scan "$work/lines"
cat "$work/said"
for order in '<' '>'; do
    for unit in 1 1000; do
        for size in 1 7 1000 30000; do
            python3 "$work/pieces.py" "$order" "$unit" "$size" < "$bay/stdin" | "$dfrbus" "$bay/data/bay.setup" 2> "$work/told" | cmp - "$work/lines" &&
                cmp "$work/told" "$work/said" && echo "$order $unit $size same"
        done
    done
done
