# what a capture has, as `bench/bus_look.py` reads it: a bay of one merging unit and one control block, with a lost, a repeated and a
# late frame; then captures by chance. `out` has the first report as counted by hand.
. files/dfrd.bash
python3 - "$work" <<'END'
import struct, sys
def e(tag, content): return bytes([tag, len(content)]) + content
def sent(kind, mac, payload): return bytes.fromhex("010ccd040001") + mac + bytes.fromhex("81008005") + struct.pack(">H", kind) + payload
def unit(count, synch=2, quality=0):
    data = b"".join(struct.pack(">iI", 1000 * i, quality if i == 3 else 0) for i in range(8))
    fields = e(0x80, b"MU01") + e(0x82, struct.pack(">H", count)) + e(0x83, b"\0\0\0\1") + e(0x85, bytes([synch])) + e(0x87, data)
    pdu = e(0x60, e(0x80, b"\1") + e(0xA2, e(0x30, fields)))
    return sent(0x88BA, bytes.fromhex("000ccd040011"), struct.pack(">HHHH", 0x4000, 8 + len(pdu), 0, 0) + pdu)
def message(state, number, open_, test=0):
    fields = [(0x80, b"IED1LD0/LLN0$GO$gcb01"), (0x81, b"\x07\xd0"), (0x82, b"IED1LD0/LLN0$ds1"), (0x83, b"gcb01"), (0x84, bytes(8)),
              (0x85, bytes([state])), (0x86, bytes([number])), (0x87, bytes([test])), (0x88, b"\1"), (0x8A, b"\3"),
              (0xAB, e(0x83, bytes([open_])) + e(0x84, b"\6\x40") + e(0x83, b"\0"))]
    pdu = e(0x61, b"".join(e(*it) for it in fields))
    return sent(0x88B8, bytes.fromhex("000ccd010001"), struct.pack(">HHHH", 1, 8 + len(pdu), 0, 0) + pdu)
# 100 samples a second: of the first second 98 and 99, of the second 7 and 12 are lost; 3 comes twice, and 15 after 16
counts = list(range(98)) + [0, 1, 2, 3, 3, 4, 5, 6, 8, 9, 10, 11, 13, 14, 16, 15] + list(range(17, 100)) + [0]
frames = [unit(c, 1 if i == 5 else 2, 0x2000 if i == 7 else 0) for i, c in enumerate(counts)]
frames[10:10] = [message(1, 0, 0), message(1, 1, 0), message(1, 4, 0), message(3, 1, 255, 1)]
frames[20:20] = [b"\xff" * 12 + b"\x08\x06" + bytes(46), frames[0][:40]]
with open(sys.argv[1] + "/bay.pcap", "wb") as out:
    out.write(struct.pack("<IHHiIII", 0xA1B2C3D4, 2, 4, 0, 0, 262144, 1))
    for i, frame in enumerate(frames):
        out.write(struct.pack("<IIII", 1700000000 + i // 20, i % 20 * 50000, len(frame), len(frame)) + frame)
END
"$dfrd" --pcap --look < "$work/bay.pcap" | tee "$work/setup"
python3 ../bench/bus_look.py report "$work/bay.pcap" | cmp - "$work/setup"
"$dfrd" --check "$work/setup" "$folder" > "$work/checked" || echo "the set-up is refused"
"$dfrd" --look --pcap < "$work/bay.pcap" | head -n 1
echo "${PIPESTATUS[0]}"
python3 ../bench/bus_look.py judge "$dfrd" 12 1 | cut -d' ' -f1,2,7-
