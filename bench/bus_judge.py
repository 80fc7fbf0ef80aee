#!/usr/bin/env python3
"""Compares what `bus_fields` reads in captures with what they say and with what tshark reads: bus_judge.py PROGRAM FOLDER.

FOLDER is one of `bus_captures.py`. Each packet that was not damaged must be printed as it is said. For each packet both
verdicts, tshark's and ours, are counted, and where both read it, each field is compared. The status is 1 if a packet differs
without a reason.
"""
import collections
import json
import os
import re
import struct
import subprocess
import sys


# what tshark says of a frame that it can't read; its other remarks are on addresses and padding
FAULT = re.compile(r"BER Error|Malformed Packet|Internal error, zero-byte")


class Pairs(list):
    """A JSON object with each of its keys, also those that come twice."""

    def of(self, key):
        return [value for name, value in self if name == key]

    def one(self, key):
        found = self.of(key)
        return found[0] if found else None

    def under(self):
        for name, value in self:
            yield name, value
            for inner in value if isinstance(value, list) and not isinstance(value, Pairs) else [value]:
                if isinstance(inner, Pairs):
                    yield from inner.under()


def number(text):
    return None if text is None else str(int(text, 0))


def octets(text):
    return None if text is None else text.replace(":", "")


def shown(it):
    return "-" if it is None else it


def unit(it):
    """A unit, as bus_fields prints it; times and clocks, which tshark rewrites, only by being there."""
    data = octets(it.one("sv.seqData")) or ""
    samples = [(int(data[i:i + 8], 16), int(data[i + 8:i + 16], 16)) for i in range(0, len(data) - 15, 16)]
    # these are not signed in IEC 61850-9-2; tshark takes them for signed numbers
    synch, mode = it.one("sv.smpSynch"), it.one("sv.smpMod")
    synch = None if synch is None else int(synch) % 2**8
    mode = None if mode is None else str(int(mode) % 2**16)
    text = lambda key: None if it.one(key) is None else it.one(key).encode("latin-1", "replace").hex()
    return (f"svID={text('sv.svID') or ''} datSet={shown(text('sv.datSet'))} smpCnt={it.one('sv.smpCnt')} confRev={it.one('sv.confRev')}"
            f" smpSynch={synch} smpRate={shown(it.one('sv.smpRate'))} smpMod={shown(mode)}"
            f" data=" + "".join(f"{v - 2**32 if v >= 2**31 else v}:{q}," for v, q in samples))


def message(goose):
    """A GOOSE message, as bus_fields prints it, without its time, and with the count of its elements."""
    text = lambda key: None if goose.one(key) is None else goose.one(key).encode("latin-1", "replace").hex()
    count = lambda key: str(int(goose.one(key) or 0) % 2**32)  # tshark takes some for signed numbers
    flag = lambda key: "true" if goose.one(key) == "1" else "false"
    return (f" gocbRef={text('goose.gocbRef') or ''} timeAllowedtoLive={count('goose.timeAllowedtoLive')} datSet={text('goose.datSet') or ''}"
            f" goID={shown(text('goose.goID'))} stNum={count('goose.stNum')} sqNum={count('goose.sqNum')} test={flag('goose.simulation')}"
            f" confRev={count('goose.confRev')} ndsCom={flag('goose.ndsCom')} entries={count('goose.numDatSetEntries')}"
            f" elements={count('goose.allData')}")


def theirs(packet):
    """What tshark reads in a packet: `sv ..`, `goose ..`, `other`, or `fault`."""
    layers = packet.one("_source").one("layers")
    names = [name for name, _ in layers]
    faults = [words for words in (str(value) for name, value in layers.under() if name == "_ws.expert.message") if FAULT.match(words)]
    if faults:
        return "fault"
    if "goose" in names and isinstance(layers.one("goose"), Pairs):
        pdus = layers.one("goose").of("goose.goosePdu_element")
        if len(pdus) != 1 or not isinstance(pdus[0], Pairs):
            return "fault"
        goose = layers.one("goose")
        return (f"goose appid={number(goose.one('goose.appid'))} reserved1={number(goose.one('goose.reserve1'))}"
                f" reserved2={number(goose.one('goose.reserve2'))}" + message(pdus[0]))
    if "sv" not in names:
        return "other"
    sv = layers.one("sv")
    if not isinstance(sv, Pairs):
        return "fault"
    pdus = sv.of("sv.savPdu_element")
    if len(pdus) != 1:
        return "fault"
    units = [it for name, it in sv.under() if name == "sv.ASDU_element"]
    if any(not isinstance(it, Pairs) for it in units):
        return "fault"
    head = f"sv appid={number(sv.one('sv.appid'))} reserved1={number(sv.one('sv.reserve1'))} reserved2={number(sv.one('sv.reserve2'))}"
    return head + "".join(" asdu " + unit(it) for it in units)


def plain(text):
    """A text up to its first byte 0, with a question mark for each byte above 127: so tshark shows it."""
    return bytes(it if it < 128 else 0x3F for it in text.split(b"\0")[0])


def comparable(line):
    """Our line, without what tshark does not tell."""
    line = re.sub(r"^\S+ \d+ vlan=\S+ inner=\S+ ", "", line)
    if line.startswith("goose"):
        line = re.sub(r" t=\S+", "", re.sub(r" datum=\S+", "", line)) + f" elements={line.count(' datum=')}"
    line = re.sub(r"(svID|datSet|gocbRef|goID)=([0-9a-f]+)", lambda it: it.group(1) + "=" + plain(bytes.fromhex(it.group(2))).hex(), line)
    return re.sub(r" (refrTm|gmIdentity)=\S+", "", line)


def reason(line, whole, start):
    """Why we refuse what tshark reads, where it is one of the differences that DECISIONS explains. `start` is the packet's place."""
    found = re.search(r" fault (\d+) (\w+)(?:\((\d+)\))?$", line)
    if not found:
        return "a VLAN tag of type 9100" if line.endswith(" type 37120") else None
    at, word = int(found.group(1)), found.group(2)
    tags = 4 * sum(f" {name}=-" not in line for name in ("vlan", "inner"))
    payload = start + 14 + tags
    if word == "Tag" and whole[at] ^ 0x20 in [int(found.group(3)), 0x81, 0x83, 0x84, 0x86, 0x88, 0x89]:
        return "the bit for `constructed` is wrong"
    if word == "Tag" and whole[at] in (0, 0x20):
        return "a tag 0 stands before an element"
    if word == "TooLong" and at == payload + 2:
        return "the head's length passes the frame's end"
    if word == "CutShort" and at == payload + int.from_bytes(whole[payload + 2:payload + 4], "big"):
        return "the head's length ends within the message"
    if word == "TooLong" and at == payload + 9:
        return "the savPdu's length passes the frame's end"
    if word in ("ReservedLength", "IndefiniteLength"):
        return "a length begins with 255 or 128"
    if word == "Uneven":
        return "the data is no whole pairs of a value and a quality"
    if word == "Size":
        return "a field has another size than in the standard"
    if word == "Asdus":
        return "noASDU is not 1 to 8"
    if word == "Number":
        return "a number is negative, or has more digits than its field"
    if word == "Kind":
        return "an element of the data has a tag of no kind"
    if word == "TooLong":
        return "an element's length passes the end of what it is in"
    if word in ("CutShort", "Trailing") and at > payload + 12:
        return "noASDU is not the number of units"
    return None


def starts(whole):
    """The place of each packet in a capture."""
    mark = ">" if whole[0] == 0xA1 else "<"
    at, found = 24, []
    while at < len(whole):
        found.append(at + 16)
        at += 16 + struct.unpack_from(mark + "I", whole, at + 8)[0]
    return found


def kind(line):
    found = re.search(r" fault \d+ (\S+)", line)
    if found:
        return "fault " + found.group(1)
    return "type" if re.search(r" type \d+$", line) else "goose" if " goose " in line else "sv"


def judge(program, base, counts, shown_lines):
    with open(base + ".pcap", "rb") as given:
        ours = subprocess.run([program], stdin=given, capture_output=True, check=True).stdout.decode().splitlines()
    said = open(base + ".said").read().splitlines()
    text = subprocess.run(["tshark", "-r", base + ".pcap", "-T", "json"], capture_output=True, check=True).stdout
    packets = json.loads(text, object_pairs_hook=Pairs)
    whole = open(base + ".pcap", "rb").read()
    places = starts(whole)
    assert len(ours) == len(said) == len(packets) == len(places), (len(ours), len(said), len(packets))
    for i, (our, told, packet, place) in enumerate(zip(ours, said, packets, places)):
        counts["packets"] += 1
        if told != "?":
            counts["sound, as said" if our == told else "SOUND, NOT AS SAID"] += 1
            if our != told and counts["SOUND, NOT AS SAID"] < 5:
                print(base, i, "said", told[:300], "\n  read", our[:300])
        their, mine = theirs(packet), kind(our)
        if mine in ("sv", "goose") and their.startswith(mine):
            same = comparable(our) == their
            counts["both read it, same fields" if same else "BOTH READ IT, OTHER FIELDS"] += 1
            if not same and counts["BOTH READ IT, OTHER FIELDS"] < 5:
                print(base, i, "\n  tshark", their[:400], "\n  ours  ", comparable(our)[:400])
        else:
            key = f"ours {mine.split('(')[0]}, tshark {their.split(' ')[0]}"
            if their.startswith(("sv", "goose")):
                key += ": " + (reason(our, whole, place) or "NOT EXPLAINED")
            counts[key] += 1
            if counts[key] <= shown_lines and "NOT" in key:
                print(base, i, key, "| ours", our[:120], "| place", place, "|", whole[place:place + 40].hex(), their[:60])


def main():
    program, folder = sys.argv[1], sys.argv[2]
    shown_lines = int(sys.argv[3]) if len(sys.argv) > 3 else 0
    counts = collections.Counter()
    for name in sorted(os.listdir(folder)):
        if name.endswith(".pcap"):
            judge(program, os.path.join(folder, name[:-5]), counts, shown_lines)
    for key, n in counts.most_common():
        print(f"{n:8} {key}")
    sys.exit(any(n for key, n in counts.items() if "NOT" in key or "OTHER" in key))


if __name__ == "__main__":
    main()
