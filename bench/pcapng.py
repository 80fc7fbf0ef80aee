#!/usr/bin/env python3
"""Random captures in the form pcapng, many of them damaged: what `dfr_pcap` makes of them, by a reader in Python that has the whole
capture, and by `tshark`.

    bench/pcapng.py tree FOLDER                      # a program over dfr_pcap, for rt try
    bench/pcapng.py make [CAPTURES [SEED]] > INPUT
    (cd FOLDER/crates/capture_forms && rt try --steps 2000000000000 --seconds 1200 < INPUT > OUTPUT)
    bench/pcapng.py judge OUTPUT [CAPTURES [SEED]]   # compares the three

Environment: NO_SHARK=1 leaves tshark out.

The reader in Python was written from the specification (draft-ietf-opsawg-pcapng) and knows nothing of steps or pieces: it cuts the capture
into blocks, and says the first fault. `tshark` says when each packet came, and how long it was; where a capture is damaged, it may stop
elsewhere, so only the packets that both give are compared, and how many differ at the end is counted.
"""
import os
import random
import shutil
import struct
import subprocess
import sys
import tempfile

HEAD = struct.pack("<IHHiIII", 0xA1B23C4D, 2, 4, 0, 0, 262144, 1)
TEXTS = {
    "order": "the byte order of the section is not known",
    "version": "the version of the section is not 1.0",
    "length": "the length of the block is not a multiple of 4, or less than its fields",
    "lengths": "the two lengths of the block differ",
    "large": "the block of the packet is larger than 524288 bytes",
    "link": "the packets of the interface are not Ethernet frames",
    "interfaces": "the section has more than 256 interfaces",
    "option": "the option is longer than its block, or has not the size of its kind",
    "interface": "the section has no such interface",
    "resolution": "the times of the interface are finer than 64 bits can count",
    "time": "the packet came before the year 1970, or after February 2106",
    "packet": "the packet is larger than 262144 bytes, or than its block",
    "untimed": "the packet has no time: it is in a simple packet block",
    "obsolete": "the packet is in an obsolete packet block; `editcap -F pcapng` writes the capture anew",
}

# ---- captures


def padded(it):
    return it + bytes(-len(it) % 4)


def block(order, kind, body):
    body = padded(body)
    size = struct.pack(order + "I", len(body) + 12)
    return struct.pack(order + "I", kind) + size + body + size


def option(order, code, value):
    return struct.pack(order + "HH", code, len(value)) + padded(value)


def comment(rng, order):
    return option(order, rng.choice([1, 2, 3, 12]), rng.randbytes(rng.randrange(12)).replace(b"\0", b"x"))


def section(rng, order):
    body = struct.pack(order + "IHHq", 0x1A2B3C4D, 1, rng.choice([0, 0, 0, 2]), -1)
    return block(order, 0x0A0D0D0A, body + (comment(rng, order) + bytes(4) if rng.random() < 0.5 else b""))


def interface(rng, order):
    options, unit, offset = [], 6, 0
    if rng.random() < 0.7:
        unit = rng.choice([0, 3, 6, 6, 9, 9, 9, 10, 12, 15, 19, 128, 138, 158, 160, 180, 191])
        options.append(option(order, 9, bytes([unit])))
    if rng.random() < 0.3:
        offset = rng.choice([0, 1, -1, 3600, -3600, 1000000000])
        options.append(option(order, 14, struct.pack(order + "q", offset)))
    options += [comment(rng, order) for _ in range(rng.randrange(3))]
    rng.shuffle(options)
    if options and rng.random() < 0.8:
        options.append(bytes(4))
    return block(order, 1, struct.pack(order + "HHI", 1, 0, rng.choice([0, 65535, 262144])) + b"".join(options)), (unit, offset)


def stamp_of(rng, unit, offset):
    ticks = 10**unit if unit < 128 else 2 ** (unit - 128)
    seconds = rng.choice([1700000000, 1700000001, 0, 1, 4000000000]) - offset
    return max(0, min(2**64 - 1, seconds * ticks + rng.randrange(ticks)))


def packet(rng, order, interfaces):
    number = rng.randrange(len(interfaces))
    kept = rng.randbytes(rng.choice([0, 1, 2, 3, 4, 60, 61, 130]))
    when = stamp_of(rng, *interfaces[number])
    body = struct.pack(order + "IIIII", number, when >> 32, when & 0xFFFFFFFF, len(kept), len(kept) + rng.choice([0, 0, 7])) + padded(kept)
    return block(order, 6, body + (option(order, 2, struct.pack(order + "I", 1)) + bytes(4) if rng.random() < 0.3 else b""))


def other(rng, order):
    """Names, statistics, secrets, custom blocks, a kind that nobody knows."""
    some = rng.randbytes(4 * rng.randrange(12))
    kind, body = rng.choice([
        (4, struct.pack(order + "HH", 1, 8) + bytes([192, 0, 2, 1]) + b"bay\0" + bytes(4)),
        (5, struct.pack(order + "III", 0, 0, 0)),
        (10, struct.pack(order + "II", 0x544C534B, len(some)) + some),
        (0xBAD, struct.pack(order + "I", 32473) + some),
        (0x40000BAD, struct.pack(order + "I", 32473) + some),
        (0x7FFF, some),
    ])
    return block(order, kind, body)


def capture(rng):
    out = b""
    for _ in range(rng.choice([1, 1, 1, 2, 3])):
        order, interfaces = rng.choice("<>"), []
        out += section(rng, order)
        for _ in range(rng.randrange(14)):
            what = rng.random()
            if not interfaces or what < 0.15:
                made, known = interface(rng, order)
                out += made
                interfaces.append(known)
            else:
                out += packet(rng, order, interfaces) if what < 0.8 else other(rng, order)
    return out


def damaged(rng, it):
    it = bytearray(it)
    for _ in range(rng.choice([1, 1, 2, 3])):
        at = rng.randrange(len(it))
        how = rng.randrange(5)
        if how == 0:
            it[at] = rng.randrange(256)
        elif how == 1:
            it[at] ^= 1 << rng.randrange(8)
        elif how == 2 and len(it) > 8:
            del it[at:]
        elif how == 3:
            at -= at % 4
            it[at:at + 4] = struct.pack(rng.choice("<>") + "I", rng.choice([0, 1, 2, 3, 6, 8, 9, 12, 14, 16, 20, 28, 32, 262145, 524292, 2**31, 2**32 - 4]))
        else:
            it[at:at + rng.choice([1, 4])] = b""
        if not it:
            it = bytearray(b"\n")
    return bytes(it)


def cases(count, seed):
    rng = random.Random(seed)
    for _ in range(count):
        it = capture(rng)
        if rng.random() < 0.6:
            it = damaged(rng, it)
        yield rng.choice([1, 2, 3, 5, 16, 40, 1000, 100000]), it


# ---- the reader in Python


class Wrong(Exception):
    pass


class Short(Exception):
    pass


def moment(unit, offset, stamp, at):
    ticks = 10**unit if unit < 128 else 2 ** (unit - 128)
    if ticks >= 2**64:
        raise Wrong(at, "resolution")
    nanos = stamp * 10**9 // ticks + offset * 10**9
    if not 0 <= nanos < 2**32 * 10**9:
        raise Wrong(at, "time")
    return divmod(nanos, 10**9)


class Reader:
    def __init__(self, data):
        self.data, self.out, self.order, self.known = data, HEAD, "<", []
        self.is_fine = False  # tshark 4.0 computes fractions of over 18 * 10^9 ticks a second in 64 bits, and they wrap

    def word(self, at, form="I"):
        size = struct.calcsize(form)
        if at + size > len(self.data):
            raise Short
        return struct.unpack_from(self.order + form, self.data, at)[0]

    def check(self, is_so, at, what):
        if not is_so:
            raise Wrong(at, what)

    def need(self, at, size):
        if at + size > len(self.data):
            raise Short

    def interface(self, at, size):
        self.check(size >= 20, at + 4, "length")
        self.check(self.word(at + 8, "H") == 1, at + 8, "link")
        self.check(len(self.known) < 256, at, "interfaces")
        unit, offset, here, end = 6, 0, at + 16, at + size - 4
        while here < end:
            self.need(here, min(12, end - here + 4))
            code, count = self.word(here, "H"), self.word(here + 2, "H")
            span = 4 + (count + 3) // 4 * 4
            self.check(span <= end - here, here + 2, "option")
            if code == 0:
                break
            self.check(code != 9 or count == 1, here + 2, "option")
            self.check(code != 14 or count == 8, here + 2, "option")
            if code == 9:
                unit = self.data[here + 4]
            if code == 14:
                offset = self.word(here + 4, "q")
            here += span
        self.known.append((unit, offset))
        self.is_fine |= (10**unit if unit < 128 else 2 ** (unit - 128)) > 18 * 10**9

    def packet(self, at, size):
        self.check(size >= 32, at + 4, "length")
        self.check(size <= 524288, at + 4, "large")
        self.need(at, size)
        number, high, low, kept, length = (self.word(at + i) for i in (8, 12, 16, 20, 24))
        self.check(number < len(self.known), at + 8, "interface")
        seconds, nanos = moment(*self.known[number], high << 32 | low, at + 12)
        self.check(kept <= 262144 and kept <= size - 32, at + 20, "packet")
        self.check(self.word(at + size - 4) == size, at + size - 4, "lengths")
        self.out += struct.pack("<IIII", seconds, nanos, kept, length) + self.data[at + 28:at + 28 + kept]

    def block(self, at):
        self.need(at, 12)
        if self.data[at:at + 4] == b"\n\r\r\n":
            magic = self.data[at + 8:at + 12]
            self.check(magic in (b"\x1a\x2b\x3c\x4d", b"\x4d\x3c\x2b\x1a"), at + 8, "order")
            self.order, self.known = "><"[magic[0] == 0x4D], []
            size = self.word(at + 4)
            self.check(size >= 28 and size % 4 == 0, at + 4, "length")
            self.need(at, 16)
            self.check((self.word(at + 12, "H"), self.word(at + 14, "H")) in ((1, 0), (1, 2)), at + 12, "version")
        else:
            size, kind = self.word(at + 4), self.word(at)
            self.check(size >= 12 and size % 4 == 0, at + 4, "length")
            self.check(kind != 2, at, "obsolete")
            self.check(kind != 3, at, "untimed")
            if kind == 1:
                self.interface(at, size)
            if kind == 6:
                self.packet(at, size)
        self.check(self.word(at + size - 4) == size, at + size - 4, "lengths")
        return at + size

    def read(self):
        """The capture of libpcap, and what is said at its end."""
        if self.data[:4] != b"\n\r\r\n":
            return (b"", "true") if len(self.data) < 4 else (self.data, "false")
        at = 0
        try:
            while at < len(self.data):
                at = self.block(at)
        except Short:
            return self.out, "true"
        except Wrong as it:
            return self.out, f"the capture is damaged at byte {it.args[0]}: {TEXTS[it.args[1]]}"
        return self.out, "false"


# ---- tshark


def shark(data):
    """What `tshark` reads: nanosecond and length of each packet, and whether it found no fault."""
    with tempfile.NamedTemporaryFile(suffix=".pcapng") as it:
        it.write(data)
        it.flush()
        run = subprocess.run(["tshark", "-n", "-r", it.name, "-T", "fields", "-e", "frame.time_epoch", "-e", "frame.cap_len", "-e", "frame.len"],
                             capture_output=True, text=True)
    packets = []
    for line in run.stdout.splitlines():
        time, kept, length = line.split("\t")
        if not time:  # a block that is no packet's
            continue
        seconds, _, fraction = time.partition(".")
        packets.append((int(seconds) * 10**9 + int(fraction.ljust(9, "0")), int(kept), int(length)))
    return packets, run.returncode == 0


def packets_of(plain):
    at, packets = 24, []
    while at < len(plain):
        seconds, nanos, kept, length = struct.unpack_from("<IIII", plain, at)
        packets.append((seconds * 10**9 + nanos, kept, length))
        at += 16 + kept
    return packets


def judge(lines, count, seed, with_shark=True):
    """Compares; counts what differs."""
    wrong = more = sharks = damaged_ones = packets = 0
    for (size, data), line in zip(cases(count, seed), lines, strict=True):
        reader = Reader(data)
        plain, said = reader.read()
        digits, _, got = line.rstrip("\n").partition(" ")
        damaged_ones += said != "false"
        if (digits, got) != (plain.hex(), said):
            wrong += 1
            print(f"differs: {data.hex()} in pieces of {size}: {got}, expected {said}")
        if with_shark and plain.startswith(HEAD) and not reader.is_fine:
            ours, (theirs, is_whole) = packets_of(plain), shark(data)
            packets += len(ours)
            if said == "false" and is_whole:
                sharks += 1
                if ours != theirs:
                    wrong += 1
                    print(f"tshark differs: {data.hex()}: {theirs}, expected {ours}")
            elif ours[:len(theirs)] != theirs[:len(ours)]:
                more += 1
                print(f"tshark differs in a damaged one: {data.hex()}: {said}: {theirs}, ours {ours}")
    print(f"{count} captures, {damaged_ones} damaged or cut, {packets} packets; {sharks} whole ones through tshark; {wrong} differences, {more} in damaged ones")
    return wrong


# ---- the program

PROGRAM = """\
//! Prints what is given of each capture on standard input, and what is said at its end.
#![tactic(auto)]

use anyhow::Result;
use dfr_pcap::Translation;
use std::alloc::Global;
use std::io;
use std::io::{BufWriter, Read, Write};

fn worth(digit: u8) -> u8 {
    match digit {
        b'0'..=b'9' => digit - b'0',
        b'a'..=b'f' => digit - b'a' + 10,
        _ => 0,
    }
}

fn bytes_of(alloc: Global, digits: &[u8]) -> Result<Vec<u8>> {
    let mut bytes = Vec::new(alloc);
    for pair in digits.chunks(2) {
        if let [high, low] = pair {
            bytes.push(worth(*high) * 16 + worth(*low))?;
        }
    }
    Ok(bytes)
}

fn print_hex<W: Write>(out: &mut W, bytes: &[u8]) -> io::Result<()> {
    for byte in bytes {
        write!(out, "{:02x}", *byte)?;
    }
    Ok(())
}

fn translate<W: Write>(alloc: Global, out: &mut W, size: usize, bytes: &[u8]) -> Result<()> {
    let mut translation = Translation::new(alloc);
    let mut plain = Vec::new(alloc);
    let mut said = None;
    for piece in bytes.chunks(size) {
        if said.is_none() {
            said = translation.take_in(piece, &mut plain).err();
        }
    }
    print_hex(out, &plain)?;
    match said {
        Some(fault) => writeln!(out, " {fault}")?,
        None => {
            let within = translation.is_within();
            writeln!(out, " {within}")?;
        }
    }
    Ok(())
}

fn main(rt: HostRuntime) -> Result<()> {
    let alloc = rt.alloc();
    let mut text = String::new(alloc);
    rt.reader().read_to_string(&mut text)?;
    let mut out = BufWriter::new(alloc, io::writer(&rt))?;
    for line in text.lines() {
        let mut words = line.split_whitespace();
        if let (Some(size), Some(digits)) = (words.next(), words.next()) {
            let Ok(size) = size.parse::<usize>() else { continue };
            if size > 0 {
                let bytes = bytes_of(alloc, digits.as_bytes())?;
                translate(alloc, &mut out, size, &bytes)?;
            }
        }
    }
    out.flush()?;
    Ok(())
}
"""


def make_tree(folder):
    """The crates below the program, and the program."""
    top = os.path.dirname(os.path.dirname(os.path.abspath(__file__)))
    for name in ("dfr_bus", "dfr_pcap"):
        for part in ("src", "specs", "proofs"):
            shutil.copytree(f"{top}/crates/{name}/{part}", f"{folder}/crates/{name}/{part}")
    shutil.copy(f"{top}/HANDLES", folder)
    os.makedirs(f"{folder}/crates/capture_forms/src")
    with open(f"{folder}/crates/capture_forms/src/main.rt", "w") as it:
        it.write(PROGRAM)
    with open(f"{folder}/crates.txt", "w") as it:
        it.write("dfr_bus: thiserror\ndfr_pcap: dfr_bus thiserror\ncapture_forms: dfr_pcap anyhow\n")


def main():
    words = sys.argv[1:]
    if words[0] == "tree":
        return make_tree(words[1])
    numbers = [int(it) for it in words[2 if words[0] == "judge" else 1:]]
    count, seed = (numbers + [1000, 1][len(numbers):])[:2]
    if words[0] == "make":
        for size, data in cases(count, seed):
            print(size, data.hex())
        return 0
    with open(words[1]) as it:
        return judge(it.readlines(), count, seed, "NO_SHARK" not in os.environ) > 0


if __name__ == "__main__":
    sys.exit(main())
