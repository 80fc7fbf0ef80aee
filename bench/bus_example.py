#!/usr/bin/env python3
"""Writes what `bus_fields` is run on, and what it must print: bus_example.py [FOLDER], by default crates/bus_fields.

The capture has frames in each form, and after them frames with one fault each. Which byte is at fault, and what is wrong
there, is said where the frame is made.
"""
import os
import random
import struct
import sys

from bus_captures import frame

TOP = os.path.dirname(os.path.dirname(os.path.abspath(__file__)))
ADDRESSES = bytes.fromhex("010ccd040001" "00505601aa02")
DATA = struct.pack(">iIiI", -5, 0, 7, 0x2000)


def e(tag, content):
    assert len(content) < 128
    return bytes([tag, len(content)]) + content


FIELDS = [e(0x80, b"MU01"), e(0x82, b"\x0f\xa0"), e(0x83, b"\0\0\0\1"), e(0x85, b"\2"), e(0x87, DATA)]
UNIT = e(0x30, b"".join(FIELDS))


def pdu(units, count=b"\x80\x01\x01"):
    return e(0x60, count + e(0xA2, units))


def payload(body, length=None):
    return struct.pack(">HHHH", 0x4000, 8 + len(body) if length is None else length, 0, 0) + body


def changed(whole, at, byte):
    return whole[:at] + bytes([byte]) + whole[at + 1:]


def with_field(number, field):
    return pdu(e(0x30, b"".join(FIELDS[:number] + [field] + FIELDS[number + 1:])))


# Places in a payload: 8 the savPdu, 10 its number of units, 13 the list of units, 15 the first unit, 17 its first field.
FIRST = 17
PLACE = [FIRST + sum(map(len, FIELDS[:n])) for n in range(6)]
SOUND = pdu(UNIT)
FAULTS = [  # a payload, the place in it, what is wrong there
    (bytes(7), 7, "CutShort"),
    (payload(SOUND, 7), 2, "Length"),
    (payload(SOUND, 9 + len(SOUND)), 2, "TooLong"),
    (payload(SOUND, 8), 8, "CutShort"),
    (payload(changed(SOUND, 0, 0x61)), 8, "Tag(96)"),
    (payload(changed(SOUND, 1, 0x80)), 9, "IndefiniteLength"),
    (payload(changed(SOUND, 1, 0xFF)), 9, "ReservedLength"),
    (payload(changed(SOUND, 1, SOUND[1] + 1)), 9, "TooLong"),
    (payload(changed(SOUND, 1, 0x84)), 9, "TooLong"),
    (payload(SOUND + b"\0"), 8 + len(SOUND), "Trailing"),
    (payload(b"\x60\x83\0"), 11, "CutShort"),
    (payload(pdu(UNIT, b"\x80\x01\x00")), 12, "Asdus"),
    (payload(pdu(UNIT, b"\x80\x01\x09")), 12, "Asdus"),
    (payload(pdu(UNIT, b"\x80\x02\0\1")), 10, "Size"),
    (payload(pdu(UNIT, b"\x81\x01\1")), 10, "Tag(128)"),
    (payload(pdu(UNIT, b"\x80\x01\2")), 15 + len(UNIT), "CutShort"),
    (payload(pdu(UNIT + UNIT)), 15 + len(UNIT), "Trailing"),
    (payload(with_field(1, e(0x82, b"\0\0\1"))), PLACE[1], "Size"),
    (payload(with_field(2, e(0x83, b"\1"))), PLACE[2], "Size"),
    (payload(with_field(2, b"")), PLACE[2], "Tag(131)"),
    (payload(with_field(3, e(0x85, b""))), PLACE[3], "Size"),
    (payload(with_field(4, e(0x87, DATA[:12]))), PLACE[4], "Uneven"),
    (payload(with_field(4, e(0x87, DATA) + e(0x8A, b""))), PLACE[5], "Trailing"),
    (payload(with_field(4, e(0x87, DATA) + e(0x88, b"\1"))), PLACE[5], "Size"),
]


GOOSE = [e(0x80, b"IED1LLN0$GO$gcb1"), e(0x81, b"\x0f\xa0"), e(0x82, b"IED1LLN0$set"), e(0x84, bytes(8)), e(0x85, b"\1"), e(0x86, b"\0"),
         e(0x88, b"\1"), e(0x8A, b"\1"), e(0xAB, e(0x83, b"\1"))]
GOOSE_FIRST = 10
GOOSE_PLACE = [GOOSE_FIRST + sum(map(len, GOOSE[:n])) for n in range(10)]


def with_goose(number, field):
    return payload(e(0x61, b"".join(GOOSE[:number] + [field] + GOOSE[number + 1:])))


GOOSE_FAULTS = [  # a field in the place of another, its place, what is wrong there
    (1, e(0x81, b"\xff"), "Number"),
    (1, e(0x81, b""), "Number"),
    (4, e(0x85, b"\1\0\0\0\0"), "Number"),
    (3, e(0x84, bytes(7)), "Size"),
    (5, b"", "Tag(134)"),
    (5, GOOSE[5] + e(0x87, b"\0\1"), "Size"),
    (7, b"", "Tag(138)"),
    (2, e(0x83, b"x"), "Tag(130)"),
]


def packets():
    """Each frame, and what is printed of it: a text, or a place in the frame and what is wrong there."""
    rng = random.Random(64)
    for _ in range(24):
        yield frame(rng)
    head, tagged = ADDRESSES + b"\x88\xba", ADDRESSES + b"\x81\x00\x80\x05\x88\xba"
    for body, place, wrong in FAULTS:
        yield head + body, (len(head) + place, wrong, "- inner=-")
    goose = ADDRESSES + b"\x88\xb8"
    for number, field, wrong in GOOSE_FAULTS:
        place = GOOSE_PLACE[number] + (len(GOOSE[5]) if field[:len(GOOSE[5])] == GOOSE[5] else 0)
        yield goose + with_goose(number, field), (len(goose) + place, wrong, "- inner=-")
    yield goose + with_goose(8, GOOSE[8] + e(0x8C, b"")), (len(goose) + GOOSE_PLACE[9], "Trailing", "- inner=-")
    yield tagged + FAULTS[4][0], (len(tagged) + 8, "Tag(96)", "32773 inner=-")
    yield ADDRESSES[:10], (10, "CutShort", None)
    yield ADDRESSES + b"\x81\x00\x00", (15, "CutShort", None)
    yield ADDRESSES + b"\x81\x00\x00\x01\x88", (17, "CutShort", None)
    yield ADDRESSES + b"\x08\x00rest", " vlan=- inner=- type 2048"
    yield ADDRESSES + b"\x88\xa8\x00\x02\x81\x00\x00\x03\x81\x00\x00\x04", " vlan=2 inner=3 type 33024"


def main():
    folder = sys.argv[1] if len(sys.argv) > 1 else os.path.join(TOP, "crates/bus_fields")
    out, told = struct.pack("<IHHiIII", 0xA1B23C4D, 2, 4, 0, 0, 262144, 1), ""
    for number, (whole, said) in enumerate(packets()):
        out += struct.pack("<IIII", 1_700_000_000 + number, 999_999_999 - number, len(whole), len(whole) + 4)
        told += f"{1_700_000_000 + number}.{999_999_999 - number:09} {len(whole) + 4}"
        if isinstance(said, str):
            told += said + "\n"
        else:
            place, wrong, vlan = said
            told += (f" vlan={vlan}" if vlan else "") + f" fault {len(out) + place} {wrong}\n"
        out += whole
    out += bytes(15)
    told += f" fault {len(out)} CutShort\n"
    with open(os.path.join(folder, "stdin"), "wb") as it:
        it.write(out)
    with open(os.path.join(folder, "stdout"), "w") as it:
        it.write(told)


if __name__ == "__main__":
    main()
