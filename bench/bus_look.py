#!/usr/bin/env python3
"""What a capture of the process bus has, by a reader of its own, to compare with `dfrd --pcap --look`.

    bus_look.py report CAPTURE            prints the report of a capture
    bus_look.py make FILE SEED            writes a capture: streams with lost, repeated and late frames, GOOSE, others, damaged frames
    bus_look.py judge DFRD NUMBER SEED    makes so many captures, and compares the reports of the program DFRD with those of this reader
"""
import collections
import os
import random
import struct
import subprocess
import sys
import tempfile

from bus_captures import damaged, element, frame

MOST = 2**64 - 1
REASONS = ["a field goes on where the frame ends", "another field than the standard's", "an indefinite length", "a length that begins with 255",
           "a length beyond the end", "a field of a wrong size", "the length in the head is below 8", "not 1 to 8 units",
           "data not of values and qualities of 4 bytes each", "a number above 4294967295", "an unknown element of data",
           "bytes after the last field", "a fault of the capture"]
CUT, TAG, INDEFINITE, RESERVED, LONG, SIZE, HEAD, UNITS, UNEVEN, NUMBER, KIND, TRAILING, _ = range(13)
KINDS = {0x83: "boolean", 0x84: "bits", 0x85: "integer", 0x86: "unsigned", 0x87: "float", 0x89: "octets", 0x8A: "text", 0x8C: "time of day",
         0x90: "MMS text", 0x91: "time", 0xA1: "array", 0xA2: "structure"}
TEXTS = {CUT: "a field goes on where the bytes end", INDEFINITE: "the length is indefinite", RESERVED: "the length begins with 255",
         LONG: "the length is larger than what is left", SIZE: "the element has not the size of its field",
         KIND: "no element of data has this tag"}


class Fault(Exception):
    pass


class Fields:
    """Elements of BER, one after the other."""

    def __init__(self, content):
        self.rest = content

    def head(self):
        """The tag and the content of the next element."""
        if not self.rest:
            raise Fault(CUT)
        tag, rest = self.rest[0], self.rest[1:]
        if not rest:
            raise Fault(CUT)
        first, rest = rest[0], rest[1:]
        if first == 128:
            raise Fault(INDEFINITE)
        if first == 255:
            raise Fault(RESERVED)
        if first > 128:
            if len(rest) < first - 128:
                raise Fault(CUT)
            first, rest = int.from_bytes(rest[:first - 128], "big"), rest[first - 128:]
        if len(rest) < first:
            raise Fault(LONG)
        self.rest = rest[first:]
        return tag, rest[:first]

    def take(self, tag, size=None):
        if not self.rest:
            raise Fault(CUT)
        if self.rest[0] != tag:
            raise Fault(TAG)
        content = self.head()[1]
        if size is not None and len(content) != size:
            raise Fault(SIZE)
        return content

    def maybe(self, tag, size=None):
        return self.take(tag, size) if self.rest and self.rest[0] == tag else None

    def number(self, tag):
        content = self.take(tag)
        if not content or content[0] > 127 or int.from_bytes(content, "big") > 2**32 - 1:
            raise Fault(NUMBER)
        return int.from_bytes(content, "big")

    def flag(self, tag):
        content = self.maybe(tag, 1)
        return content is not None and content != b"\0"

    def only(self, tag):
        content = self.take(tag)
        self.end()
        return content

    def end(self):
        if self.rest:
            raise Fault(TRAILING)


def body(payload, tag):
    """The head of a frame's payload, and its PDU."""
    if len(payload) < 8:
        raise Fault(CUT)
    app_id, length, reserved, _ = struct.unpack(">HHHH", payload[:8])
    if length < 8:
        raise Fault(HEAD)
    if length > len(payload):
        raise Fault(LONG)
    return app_id, reserved, Fields(payload[8:length]).only(tag)


Unit = collections.namedtuple("Unit", "sv_id dat_set count revision synch rate modulus samples")
Message = collections.namedtuple("Message", "gocb_ref live dat_set go_id state number test revision commissioning entries data")


def sampled(payload):
    app_id, reserved, pdu = body(payload, 0x60)
    fields = Fields(pdu)
    count = fields.take(0x80, 1)[0]
    if not 1 <= count <= 8:
        raise Fault(UNITS)
    units, content = [], Fields(fields.only(0xA2))
    for _ in range(count):
        f = Fields(content.take(0x30))
        sv_id, dat_set = f.take(0x80), f.maybe(0x81)
        smp_cnt, revision = int.from_bytes(f.take(0x82, 2), "big"), int.from_bytes(f.take(0x83, 4), "big")
        f.maybe(0x84, 8)
        synch, rate = f.take(0x85, 1)[0], f.maybe(0x86, 2)
        data = f.take(0x87)
        if len(data) % 8:
            raise Fault(UNEVEN)
        modulus = f.maybe(0x88, 2)
        f.maybe(0x89, 8)
        f.end()
        number = lambda it: None if it is None else int.from_bytes(it, "big")
        units.append(Unit(sv_id, dat_set, smp_cnt, revision, synch, number(rate), number(modulus), list(struct.iter_unpack(">iI", data))))
    content.end()
    return app_id, reserved, units


def goose(payload):
    app_id, reserved, pdu = body(payload, 0x61)
    f = Fields(pdu)
    gocb_ref, live, dat_set, go_id = f.take(0x80), f.number(0x81), f.take(0x82), f.maybe(0x83)
    f.take(0x84, 8)
    state, number, test, revision = f.number(0x85), f.number(0x86), f.flag(0x87), f.number(0x88)
    commissioning, entries = f.flag(0x89), f.number(0x8A)
    return app_id, reserved, Message(gocb_ref, live, dat_set, go_id, state, number, test, revision, commissioning, entries, f.only(0xAB))


def fits(tag, content):
    size, first = len(content), content[0] if content else 0
    if tag == 0x83:
        return size == 1
    if tag == 0x84:
        return (size == 1 and first == 0) or (size > 1 and first < 8)
    if tag in (0x85, 0x86):
        return 0 < size < 10
    if tag == 0x87:
        return (size, first) in ((5, 8), (9, 11))
    return size == 8 if tag == 0x91 else size in (4, 6) if tag == 0x8C else True


def elements(data):
    """The kinds of the elements, and the fault that ends them."""
    kinds, fields = [], Fields(data)
    try:
        while fields.rest:
            tag, content = fields.head()
            if tag not in KINDS:
                raise Fault(KIND)
            if not fits(tag, content):
                raise Fault(SIZE)
            kinds.append(KINDS[tag])
    except Fault as fault:
        return kinds, fault.args[0]
    return kinds, None


def ethernet(bytes_):
    """Addresses, VLAN tags, EtherType and payload; None where the head is cut short."""
    tags, at = [], 12
    while True:
        if len(bytes_) < at + 2:
            return None
        kind = struct.unpack(">H", bytes_[at:at + 2])[0]
        if kind not in (0x8100, 0x88A8) or len(tags) == 2:
            return bytes_[:6], bytes_[6:12], tags, kind, bytes_[at + 2:]
        if len(bytes_) < at + 4:
            return None
        tags.append(struct.unpack(">H", bytes_[at + 2:at + 4])[0])
        at += 4


def text(name):
    return "".join(chr(b) if 0x20 <= b < 0x7F and b != 0x5C else f"\\x{b:02x}" for b in name) or "(no name)"


def source(head, app_id, reserved):
    to, sender, tags, _, _ = head
    vlans = "".join(f", VLAN {t % 4096} priority {t >> 13}" for t in tags)
    mac = lambda it: ":".join(f"{b:02x}" for b in it)
    return f"#   APPID 0x{app_id:04x}, from {mac(sender)} to {mac(to)}{vlans}{', simulated' if reserved >= 0x8000 else ''}"


def followed(counts):
    """Of sample counts: lost, repeated, late, the highest, and how often they began anew."""
    newest = high = counts[0]
    steps, late, repeated, tops = [], 0, 0, 0
    for count in counts[1:]:
        if count == newest:
            repeated += 1
        elif 0 < newest - count <= 64 or (tops and newest < count <= high and newest + high + 1 - count <= 64):
            late += 1
        else:
            steps.append((newest, count))
            tops += count < newest
            high, newest = max(high, count), count
    # of each second the samples up to the highest count of all are wanted
    lost = sum(b - a - 1 if a < b else high - a + b for a, b in steps)
    return lost, repeated, late, high, tops


def stream_lines(number, units):
    head, app_id, reserved, first, in_frame = units[0]
    all_units = [it[3] for it in units]
    lost, repeated, late, high, tops = followed([u.count for u in all_units])
    yield "#"
    yield f"# stream {number}: {text(first.sv_id)}"
    yield source(head, app_id, reserved)
    yield (f"#   dataset {'not sent' if first.dat_set is None else text(first.dat_set)}, revision {first.revision}, {len(first.samples)} values,"
           f" {in_frame} in a frame")
    if first.rate is None:
        declared = "smpRate is not sent"
    else:
        declared = {0: f"smpRate {first.rate} per period", 1: f"smpRate {first.rate} per second", 2: f"smpRate: {first.rate} seconds per sample"}.get(
            first.modulus, f"smpRate {first.rate} (smpMod is not sent)")
    seen = f"{high + 1} samples per second by smpCnt" if tops else f"not seen, smpCnt did not begin anew (highest {high})"
    yield f"#   rate: {seen}; {declared}"
    yield f"#   units: {len(units)}; lost {lost}, repeated {repeated}, out of order {late}"
    form = lambda u: (len(u.samples), u.rate, u.modulus, u.revision)
    changed = sum(form(u) != form(first) for u in all_units)
    if changed:
        yield f"#   units that differ from the first in values, rate or revision: {changed}"
    names = {0: "not synchronised", 1: "local", 2: "global"}
    synchs = collections.Counter(names.get(u.synch, "a numbered clock") for u in all_units)
    yield "#   clock (smpSynch), units: " + ", ".join(f"{n} {synchs[n]}" for n in ("global", "local", "not synchronised", "a numbered clock") if synchs[n])
    bits, bad = 0, 0
    for u in all_units:
        quality = 0
        for _, q in u.samples:
            quality |= q
        bits, bad = bits | quality, bad + (quality != 0)
    yield f"#   quality: not 0 in {bad} units, bits 0x{bits:08x}" if bad else "#   quality: 0 in all units"


def block_lines(number, messages):
    head, app_id, reserved, first, _ = messages[0]
    kinds, fault = elements(first.data)
    yield "#"
    yield f"# control block {number}: {text(first.gocb_ref)}"
    yield source(head, app_id, reserved)
    yield (f"#   dataset {text(first.dat_set)}, goID {'not sent' if first.go_id is None else text(first.go_id)}, revision {first.revision}")
    yield f"#   elements: {first.entries}:" + (" " + ", ".join(kinds) if kinds else "") + (f"; then a fault: {TEXTS[fault]}" if fault is not None else "")
    lost = repeated = back = states = lost_states = expired = 0
    for (_, _, _, a, then), (_, _, _, b, now) in zip(messages, messages[1:]):
        if (a.state, a.number) == (b.state, b.number):
            repeated += 1
        elif a.state == b.state and a.number < b.number:
            lost += b.number - a.number - 1
        elif a.state < b.state:
            states, lost_states, lost = states + 1, lost_states + b.state - a.state - 1, lost + b.number
        else:
            back += 1
        expired += now > then + a.live * 10**6
    last = messages[-1][3]
    yield f"#   messages: {len(messages)}; lost {lost}, repeated {repeated}, from before {back}"
    yield f"#   state changes: {states}; lost {lost_states}; the last message has stNum {last.state} sqNum {last.number}"
    yield f"#   time to live: {last.live} ms in the last message, exceeded {expired} times"
    yield f"#   test {sum(m[3].test for m in messages)}, needs commissioning {sum(m[3].commissioning for m in messages)} messages"
    changed = sum((m[3].entries, m[3].revision) != (first.entries, first.revision) for m in messages)
    if changed:
        yield f"#   messages that differ from the first in elements or revision: {changed}"


def setup_lines(streams, blocks):
    yield "#"
    yield "# A set-up to start from. With 8 values, units of 1 mA and 10 mV (IEC 61850-9-2 LE) are"
    yield "# assumed. Set the names, the ratios, the limits and the rules."
    yield "station STATION"
    yield "device DFR"
    channels, rate = [], None
    for i, units in enumerate(streams, 1):
        values = len(units[0][3].samples)
        for v in range(values):
            if values == 8:
                name, unit = "IU"[v // 4] + "ABCN"[v % 4], ("A,0.1", "kV,0.01")[v // 4]
                channels.append(f"analog S{i}_{name},{'ABCN'[v % 4]},stream {i},{unit},0,0,-32767,32767,1,1,P")
            else:
                channels.append(f"analog S{i}_{v},,stream {i},,1,0,0,-32767,32767,1,1,P")
        _, _, _, high, tops = followed([u[3].count for u in units])
        rate = high + 1 if rate is None and tops else rate
    contacts = [f"status G{i}_{n},,control block {i},0" for i, messages in enumerate(blocks, 1)
                for n, kind in enumerate(elements(messages[0][3].data)[0]) if kind == "boolean"]
    yield from channels[:256]
    yield from contacts[:256]
    if not channels and not contacts:
        yield "# no value and no contact: a recorder needs a channel"
    yield "freq 50"
    if rate is None or rate < 10:
        yield "# no stream shows its rate: 4000 is a guess"
        rate = 4000
    yield f"rate {rate}"
    yield f"limits {rate // 10},{rate // 2},{rate * 2},4"
    yield "rules"


def report(capture):
    """The lines of the report, and whether the capture is whole."""
    orders = {b"\xa1\xb2\xc3\xd4": (">", 1000), b"\xa1\xb2\x3c\x4d": (">", 1), b"\xd4\xc3\xb2\xa1": ("<", 1000), b"\x4d\x3c\xb2\xa1": ("<", 1)}
    order, unit = orders[capture[:4]]
    at, times, skipped = 24, [], collections.Counter()
    streams, blocks, further = {}, {}, [0, 0]
    fault, frames = None, 0
    while at < len(capture):
        if len(capture) < at + 16:
            fault = f"byte {len(capture)}: a field goes on where the bytes end"
            break
        seconds, fraction, kept, _ = struct.unpack(order + "IIII", capture[at:at + 16])
        if kept > 262144:
            fault = f"byte {at + 8}: the packet is larger than 262144 bytes"
            break
        if len(capture) < at + 16 + kept:
            fault = f"byte {len(capture)}: a field goes on where the bytes end"
            break
        now, content = seconds * 10**9 + fraction * unit, capture[at + 16:at + 16 + kept]
        at, frames = at + 16 + kept, frames + 1
        times.append(now)
        head = ethernet(content)
        if head is None:
            skipped["short"] += 1
        elif head[3] == 0x88BA:
            try:
                app_id, reserved, units = sampled(head[4])
            except Fault as it:
                skipped["sampled values", it.args[0]] += 1
                continue
            for u in units:
                key = (head[1], app_id, u.sv_id)
                if key in streams or len(streams) < 256:
                    streams.setdefault(key, []).append((head, app_id, reserved, u, len(units)))
                else:
                    further[0] += 1
        elif head[3] == 0x88B8:
            try:
                app_id, reserved, message = goose(head[4])
            except Fault as it:
                skipped["GOOSE", it.args[0]] += 1
                continue
            key = (head[1], app_id, message.gocb_ref)
            if key in blocks or len(blocks) < 256:
                blocks.setdefault(key, []).append((head, app_id, reserved, message, now))
            else:
                further[1] += 1
        else:
            skipped["other"] += 1
    lines = []
    span = ""
    if times and times[0] <= times[-1]:
        ms = (times[-1] - times[0]) // 10**6
        span = f" in {ms // 1000}.{ms % 1000:03} s"
    lines.append(f"# capture: {frames} frames{span}; Ethernet, times in {'micro' if unit == 1000 else 'nano'}seconds")
    if skipped["other"]:
        lines.append(f"# skipped: {skipped['other']} frames of other protocols")
    if skipped["short"]:
        lines.append(f"# skipped: {skipped['short']} frames that end within their Ethernet head")
    for protocol in ("sampled values", "GOOSE"):
        lines += [f"# skipped: {skipped[protocol, i]} frames of {protocol}: {reason}" for i, reason in enumerate(REASONS) if skipped[protocol, i]]
    if further[0]:
        lines.append(f"# more streams than 256: {further[0]} units are of the others")
    if further[1]:
        lines.append(f"# more control blocks than 256: {further[1]} messages are of the others")
    if fault:
        lines.append(f"# the capture is damaged: {fault}; the rest is not read")
    for i, units in enumerate(streams.values(), 1):
        lines += stream_lines(i, units)
    for i, messages in enumerate(blocks.values(), 1):
        lines += block_lines(i, messages)
    lines += setup_lines(list(streams.values()), list(blocks.values()))
    return lines, fault is None


# ---- captures

class Sender:
    """A merging unit: its frames one after the other."""

    def __init__(self, rng, number):
        self.rng, self.number = rng, number
        self.rate = rng.choice([80, 100, 256, 400, 1000])
        self.values = rng.choice([8, 8, 8, 4, 1, 0, 24])
        self.in_frame = rng.choice([1, 1, 1, 2, 8])
        self.place = rng.randrange(self.rate)
        self.mac = bytes([0, 0x0C, 0xCD, 4, rng.randrange(2), number % 256])
        self.app_id = rng.choice([0x4000, 0x4000 + number % 256, 0x7FFF])
        self.sv_id = rng.choice([b"MU%02d" % number, b"MU", b"BAY1/LLN0$MU,1", b"\xc3\xa9\x1b[0m"])
        self.fields = [rng.choice([None, b"IED1MU01/LLN0$PhsMeas1"]), rng.choice([None, None, self.rate % 65536]), rng.choice([None, None, 0, 1, 2])]
        self.synch = rng.choice([0, 1, 2, 2, 5])
        self.tags = rng.choice([[], [0x8000 + 5], [4 << 13, 3]])

    def frame(self):
        rng, units = self.rng, b""
        for _ in range(self.in_frame):
            synch = self.synch if rng.random() < 0.99 else rng.choice([0, 1, 2, 9])
            data = b"".join(struct.pack(">iI", rng.randrange(-2**31, 2**31), 0 if rng.random() < 0.995 else rng.choice([1, 0x2000, 2**31]))
                            for _ in range(self.values))
            fields = [(0x80, self.sv_id), (0x81, self.fields[0]), (0x82, struct.pack(">H", self.place % self.rate)), (0x83, b"\0\0\0\1"),
                      (0x85, bytes([synch])), (0x86, None if self.fields[1] is None else struct.pack(">H", self.fields[1])), (0x87, data),
                      (0x88, None if self.fields[2] is None else struct.pack(">H", self.fields[2]))]
            units += element(rng, 0x30, b"".join(element(rng, tag, it) for tag, it in fields if it is not None))
            self.place += 1
        pdu = element(rng, 0x60, element(rng, 0x80, bytes([self.in_frame])) + element(rng, 0xA2, units))
        marks = b"".join(struct.pack(">HH", 0x8100, t) for t in self.tags)
        return b"\x01\x0c\xcd\x04\0\1" + self.mac + marks + b"\x88\xba" + struct.pack(">HHHH", self.app_id, 8 + len(pdu), 0, 0) + pdu


class Publisher:
    """A GOOSE control block: its messages one after the other."""

    def __init__(self, rng, number):
        self.rng, self.number, self.state, self.sequence = rng, number, 1, 0
        self.mac = bytes([0, 0x0C, 0xCD, 1, 0, number % 256])
        self.ref = rng.choice([b"IED%dLD0/LLN0$GO$gcb01" % number, b"GCB"])
        self.kinds = [rng.choice([0x83, 0x83, 0x84, 0x85, 0x91, 0xA2]) for _ in range(rng.randrange(5))]
        self.live = rng.choice([4, 20, 2000])

    def frame(self):
        rng = self.rng
        if rng.random() < 0.1:
            self.state, self.sequence = self.state + 1, 0
        content = {0x83: b"\1", 0x84: b"\6\x40", 0x85: b"\5", 0x91: bytes(8), 0xA2: b"\x83\1\0"}
        number = lambda n: n.to_bytes(n.bit_length() // 8 + 1, "big")
        fields = [(0x80, self.ref), (0x81, number(self.live)), (0x82, b"IED1LD0/LLN0$ds1"), (0x83, b"gcb01"), (0x84, bytes(8)), (0x85, number(self.state)),
                  (0x86, number(self.sequence)), (0x87, bytes([rng.random() < 0.05])), (0x88, b"\1"), (0x89, bytes([rng.random() < 0.05])),
                  (0x8A, bytes([len(self.kinds)])), (0xAB, b"".join(element(rng, k, content[k]) for k in self.kinds))]
        self.sequence += 1
        pdu = element(rng, 0x61, b"".join(element(rng, tag, it) for tag, it in fields))
        return b"\x01\x0c\xcd\x01\0\1" + self.mac + b"\x88\xb8" + struct.pack(">HHHH", 1 + self.number % 256, 8 + len(pdu), 0, 0) + pdu


def make(rng):
    """A capture."""
    many = rng.random() < 0.05
    senders = [Sender(rng, i) for i in range(rng.randrange(250, 300) if many else rng.randrange(4))]
    publishers = [Publisher(rng, i) for i in range(rng.randrange(250, 300) if many else rng.randrange(3))]
    losing, repeating, late, odd = (rng.choice([0, 0, 0.01, 0.2]) for _ in range(4))
    frames, now = [], 1_700_000_000 * 10**9
    for _ in range(3 if many else rng.choice([0, 5, 300, 1500])):
        for sender in senders:
            made = sender.frame()
            if rng.random() >= losing:
                frames.append(made)
                if rng.random() < repeating:
                    frames.append(made)
            if rng.random() < late and len(frames) > 3:
                a = len(frames) - 1 - rng.randrange(3)
                frames[a], frames[-1] = frames[-1], frames[a]
        for publisher in publishers:
            if many or rng.random() < 0.05:
                made = publisher.frame()
                if rng.random() >= losing:
                    frames.append(made)
        if rng.random() < odd / 4:
            frames.append(rng.choice([bytes(10), bytes(14), b"\1" * 12 + b"\x08\x00" + bytes(40), frame(rng)[0], damaged(rng, frame(rng)[0])]))
            if frames[:-1] and rng.random() < 0.5:
                frames.append(damaged(rng, rng.choice(frames)))
    order, unit = rng.choice("<>"), rng.choice([1000, 1])
    out = [struct.pack(order + "IHHiIII", 0xA1B2C3D4 if unit == 1000 else 0xA1B23C4D, 2, 4, 0, 0, 262144, 1)]
    for it in frames:
        now += rng.choice([250_000, 250_000, 250_000, 30_000_000])
        out.append(struct.pack(order + "IIII", now // 10**9, now % 10**9 // unit, len(it), len(it)) + it)
    capture = b"".join(out)
    return capture[:rng.randrange(24, len(capture) + 1)] if rng.random() < 0.2 else capture


def judge(program, number, seed):
    differences = frames = streams = 0
    with tempfile.TemporaryDirectory() as room:
        for i in range(number):
            capture = make(random.Random(f"{seed}/{i}"))
            lines, whole = report(capture)
            path = os.path.join(room, "x.pcap")
            with open(path, "wb") as file:
                file.write(capture)
            with open(path, "rb") as file:
                ran = subprocess.run([program, "--pcap", "--look"], stdin=file, capture_output=True)
            got = ran.stdout.decode("ascii").splitlines()
            frames += int(lines[0].split()[2])
            streams += sum(line.startswith("# stream") for line in lines)
            if got != lines or (ran.returncode == 0) != whole:
                differences += 1
                print(f"capture {seed}/{i} differs, status {ran.returncode}:")
                for a, b in zip(lines + [None] * len(got), got + [None] * len(lines)):
                    if a != b:
                        print(f"  wanted {a}\n  got    {b}")
                        break
    print(f"{number} captures, {frames} frames, {streams} streams, {differences} differences")
    return differences


def main():
    if sys.argv[1:2] == ["report"] and len(sys.argv) == 3:
        with open(sys.argv[2], "rb") as file:
            print("\n".join(report(file.read())[0]))
    elif sys.argv[1:2] == ["make"] and len(sys.argv) == 4:
        with open(sys.argv[2], "wb") as file:
            file.write(make(random.Random(sys.argv[3])))
    elif sys.argv[1:2] == ["judge"] and len(sys.argv) == 5:
        sys.exit(1 if judge(sys.argv[2], int(sys.argv[3]), sys.argv[4]) else 0)
    else:
        sys.exit(__doc__)


if __name__ == "__main__":
    main()
