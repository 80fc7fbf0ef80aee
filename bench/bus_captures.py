#!/usr/bin/env python3
"""Captures of a process bus, made from their fields: bus_captures.py FOLDER FRAMES SEED [sv|goose].

Writes FOLDER/{big,little}-{micro,nano}.pcap and, beside each, NAME.said: for every packet a line with what the frame
says, as `bus_fields` prints it, or `?` where the frame was damaged. A quarter of the frames is damaged. The frames
are sampled values and GOOSE, or only one of them.
"""
import os
import random
import struct
import sys

ETHER_SV = 0x88BA
ETHER_GOOSE = 0x88B8


def length(rng, n, plain=False):
    """A definite length of BER in one of its forms."""
    digits = n.to_bytes(max(1, (n.bit_length() + 7) // 8), "big")
    if n < 128 and (plain or rng.random() < 0.8):
        return bytes([n])
    zeros = 0 if plain else rng.choice([0, 0, 0, 1, 2])
    return bytes([128 + zeros + len(digits)]) + bytes(zeros) + digits


def element(rng, tag, content):
    return bytes([tag]) + length(rng, len(content)) + content


def text(rng):
    size = rng.choice([0, 1, 4, 10, 34, 64, 129])
    return bytes(rng.choice(b"ABCDEFGHIJKLMNOPQRSTUVWXYZabcdefghijklmnopqrstuvwxyz0123456789/$_") for _ in range(size))


def maybe(rng, make):
    return make() if rng.random() < 0.5 else None


def shown(it):
    return "-" if it is None else it.hex() if isinstance(it, bytes) else str(it)


def asdu(rng):
    """The bytes of a unit, and what it says."""
    name, data_set = text(rng), maybe(rng, lambda: text(rng))
    count, revision = rng.randrange(2**16), rng.randrange(2**32)
    time = maybe(rng, lambda: rng.randbytes(8))
    synch = rng.choice([0, 1, 2, 5, 254])
    rate = maybe(rng, lambda: rng.choice([80, 256, 4000, 4800, 65535]))
    samples = [(rng.randrange(-2**31, 2**31), rng.choice([0, 0, 1, 0x2000, rng.randrange(2**32)])) for _ in range(rng.choice([0, 1, 8, 8, 16, 24]))]
    mode = maybe(rng, lambda: rng.randrange(3))
    clock = maybe(rng, lambda: rng.randbytes(8)) if rng.random() < 0.2 else None
    fields = [(0x80, name), (0x81, data_set), (0x82, struct.pack(">H", count)), (0x83, struct.pack(">I", revision)), (0x84, time),
              (0x85, bytes([synch])), (0x86, None if rate is None else struct.pack(">H", rate)),
              (0x87, b"".join(struct.pack(">iI", *s) for s in samples)), (0x88, None if mode is None else struct.pack(">H", mode)), (0x89, clock)]
    content = b"".join(element(rng, tag, it) for tag, it in fields if it is not None)
    said = (f" asdu svID={shown(name)} datSet={shown(data_set)} smpCnt={count} confRev={revision} refrTm={shown(time)} smpSynch={synch}"
            f" smpRate={shown(rate)} smpMod={shown(mode)} gmIdentity={shown(clock)} data=" + "".join(f"{v}:{q}," for v, q in samples))
    return element(rng, 0x30, content), said


def sampled_values(rng):
    """A payload of sampled values, and what it says."""
    units = [asdu(rng) for _ in range(rng.choice([1, 1, 1, 2, 6, 8]))]
    content = element(rng, 0x80, bytes([len(units)])) + element(rng, 0xA2, b"".join(it for it, _ in units))
    pdu = element(rng, 0x60, content)
    head = (rng.choice([0x4000, 0x7FFF, 0]), 8 + len(pdu), rng.choice([0, 0x8000]), 0)
    said = f" sv appid={head[0]} reserved1={head[2]} reserved2={head[3]}" + "".join(it for _, it in units)
    return struct.pack(">HHHH", *head) + pdu, said


def whole_number(rng, least, most, signed):
    """A number in its fewest bytes, or in a fixed size, as devices send it."""
    n = rng.choice([least, 0, 1, 127, 128, 255, most, rng.randrange(least, most + 1)])
    size = max(1, (n.bit_length() + 8) // 8) if signed or rng.random() < 0.7 else 5
    return n, n.to_bytes(size, "big", signed=signed)


def datum(rng, depth=0):
    """An element of data, and what it is."""
    kind = rng.choice(["Boolean", "Boolean", "Bits", "Integer", "Unsigned", "Float", "Octets", "Text", "Time", "Structure", "Array"][:11 if depth < 3 else 9])
    if kind in ("Structure", "Array"):
        content = b"".join(datum(rng, depth + 1)[0] for _ in range(rng.randrange(4)))
    else:
        content = {
            "Boolean": lambda: bytes([rng.choice([0, 1, 255])]),
            "Bits": lambda: bytes([rng.randrange(8)]) + rng.randbytes(rng.randrange(1, 4)),
            "Integer": lambda: whole_number(rng, -2**31, 2**31 - 1, True)[1],
            "Unsigned": lambda: whole_number(rng, 0, 2**32 - 1, False)[1],
            "Float": lambda: b"\x08" + struct.pack(">f", rng.uniform(-1e6, 1e6)),
            "Octets": lambda: rng.randbytes(rng.randrange(10)),
            "Text": lambda: text(rng),
            "Time": lambda: rng.randbytes(8),
        }[kind]()
    tag = {"Boolean": 0x83, "Bits": 0x84, "Integer": 0x85, "Unsigned": 0x86, "Float": 0x87, "Octets": 0x89, "Text": 0x8A, "Time": 0x91, "Array": 0xA1,
           "Structure": 0xA2}[kind]
    return element(rng, tag, content), f" datum={content.hex()}:{kind}"


def goose(rng):
    """A payload of GOOSE, and what it says."""
    names = [text(rng), text(rng), maybe(rng, lambda: text(rng))]
    numbers = [whole_number(rng, 0, 2**32 - 1, False) for _ in range(4)]
    flags = [maybe(rng, lambda: rng.choice([0, 1, 255])) for _ in range(2)]
    time, data = rng.randbytes(8), [datum(rng) for _ in range(rng.choice([0, 1, 4, 10]))]
    fields = [(0x80, names[0]), (0x81, numbers[0][1]), (0x82, names[1]), (0x83, names[2]), (0x84, time), (0x85, numbers[1][1]), (0x86, numbers[2][1]),
              (0x87, flags[0] if flags[0] is None else bytes([flags[0]])), (0x88, numbers[3][1]), (0x89, flags[1] if flags[1] is None else bytes([flags[1]])),
              (0x8A, bytes([len(data)])), (0xAB, b"".join(it for it, _ in data))]
    pdu = element(rng, 0x61, b"".join(element(rng, tag, it) for tag, it in fields if it is not None))
    head = (rng.choice([0, 1, 0x3FFF]), 8 + len(pdu), rng.choice([0, 0x8000]), 0)
    true = lambda flag: "true" if flag else "false"
    said = (f" goose appid={head[0]} reserved1={head[2]} reserved2={head[3]} gocbRef={shown(names[0])} timeAllowedtoLive={numbers[0][0]}"
            f" datSet={shown(names[1])} goID={shown(names[2])} t={shown(time)} stNum={numbers[1][0]} sqNum={numbers[2][0]} test={true(flags[0])}"
            f" confRev={numbers[3][0]} ndsCom={true(flags[1])} entries={len(data)}" + "".join(it for _, it in data))
    return struct.pack(">HHHH", *head) + pdu, said


def frame(rng, kind=None):
    """An Ethernet frame, and what it says."""
    tags = [rng.randrange(2**16) for _ in range(rng.choice([0, 1, 1, 2]))]
    marks = b"".join(struct.pack(">HH", 0x88A8 if len(tags) == 2 and i == 0 else 0x8100, tag) for i, tag in enumerate(tags))
    make = {"sv": sampled_values, "goose": goose}[kind or ("sv" if rng.random() < 0.6 else "goose")]
    payload, said = make(rng)
    addresses = rng.randbytes(6) + bytes([rng.randrange(128) * 2]) + rng.randbytes(5)
    whole = addresses + marks + struct.pack(">H", ETHER_SV if said.startswith(" sv") else ETHER_GOOSE) + payload
    whole += bytes(max(0, 60 - len(whole))) if rng.random() < 0.7 else bytes(rng.randrange(5))
    vlan = f" vlan={shown(tags[0] if tags else None)} inner={shown(tags[1] if len(tags) > 1 else None)}"
    return whole, vlan + said


def damaged(rng, whole):
    """The frame with some bytes changed, left out, or put in, mostly near its head."""
    whole = bytearray(whole)
    for _ in range(rng.choice([1, 1, 1, 2, 5])):
        at = min(len(whole) - 1, rng.choice([rng.randrange(len(whole)), 12 + int(rng.expovariate(1 / 40))]))
        way = rng.randrange(6)
        if way == 0:
            del whole[max(14, at):]
        elif way == 1:
            del whole[at]
        elif way == 2:
            whole.insert(at, rng.randrange(256))
        elif way == 3:
            whole[at] = rng.choice([0, 1, 0x7F, 0x80, 0x81, 0x82, 0x84, 0xFE, 0xFF])
        else:
            whole[at] ^= 1 << rng.randrange(8)
        if not whole:
            whole = bytearray(1)
    return bytes(whole)


def write(folder, order, unit, frames, rng, kind):
    mark, magic, most = {"big": ">", "little": "<"}[order], {"micro": 0xA1B2C3D4, "nano": 0xA1B23C4D}[unit], {"micro": 10**6, "nano": 10**9}[unit]
    name = os.path.join(folder, f"{order}-{unit}")
    with open(name + ".pcap", "wb") as out, open(name + ".said", "w") as told:
        out.write(struct.pack(mark + "IHHiIII", magic, 2, 4, 0, 0, 262144, 1))
        for _ in range(frames):
            whole, said = frame(rng, kind)
            if rng.random() < 0.25:
                whole, said = damaged(rng, whole), None
            seconds, fraction = rng.randrange(2**31), rng.randrange(most)
            out.write(struct.pack(mark + "IIII", seconds, fraction, len(whole), len(whole)) + whole)
            told.write("?\n" if said is None else f"{seconds}.{fraction * (10**9 // most):09} {len(whole)}{said}\n")


def main():
    folder, frames, seed = sys.argv[1], int(sys.argv[2]), int(sys.argv[3])
    kind = sys.argv[4] if len(sys.argv) > 4 else None
    os.makedirs(folder, exist_ok=True)
    for i, (order, unit) in enumerate((o, u) for o in ("big", "little") for u in ("micro", "nano")):
        write(folder, order, unit, frames, random.Random(seed * 4 + i), kind)


if __name__ == "__main__":
    main()
