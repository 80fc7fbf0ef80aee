#!/usr/bin/env python3
"""Compares what `comtrade` reads of compressed records with what zlib says.

    bench/inflate/run.py COMTRADE [--count N] [--seed S] [--quick]

Each of N records (1,000) has BINARY data, whose samples are texts, runs, noise or repetitions. Its
data are compressed as one stream of
DEFLATE: by zlib at all levels, strategies and window sizes, with flushes, and by streams.py in
blocks that zlib never makes. The stream stands
in a gzip file, a .zip or a .cfz. `csv` must print of it what it prints of the plain record.

Each stream is also damaged. Once it keeps its checksum: `csv` must refuse it if zlib does. Once it
gets the checksum of what zlib still makes
of it: `csv` must print what it prints of these bytes as a plain file. --quick makes 40 records.
The status is 1 if anything is wrong."""
import argparse
import collections
import os
import random
import subprocess
import sys
import tempfile
import zlib

sys.path.insert(0, os.path.dirname(os.path.abspath(__file__)))
sys.dont_write_bytecode = True
import streams
from containers import gzip_of, zip_of

CHANNELS = 16
ROW = 8 + 2 * CHANNELS


def samples(rng):
    """Bytes of some kind."""
    kind, size = rng.randrange(7), rng.choice((1, 30, 100, 300, 1000, 3000, 3000, 10000, 40000))
    if kind == 0:
        return rng.randbytes(size)
    if kind == 1:
        return bytes(size)
    if kind == 2:
        words = [rng.randbytes(rng.randrange(1, 12)) for _ in range(50)]
        return b"".join(rng.choice(words) for _ in range(size // 5))
    if kind == 3:
        return "".join(f"{i},{i * 250},{rng.randrange(-99, 99)},{i % 7}\r\n"
                       for i in range(size // 12)).encode()
    if kind == 4:
        return bytes(rng.randrange(3) for _ in range(size))
    if kind == 5:
        piece = rng.randbytes(rng.randrange(1, 300))
        far = piece + bytes(32768 - len(piece) - rng.randrange(3)) + piece
        return far[: size + 33000 * (size > 1000)]
    return bytes(rng.choices(range(256), weights=[2 ** -min(i, 40) for i in range(256)], k=size))


def data_of(content):
    """BINARY rows with these bytes as their samples."""
    rows = []
    for i in range(0, max(len(content), 1), ROW - 8):
        number = i // (ROW - 8) + 1
        rows.append(number.to_bytes(4, "little") + (250 * (number - 1)).to_bytes(4, "little"))
        rows.append(content[i : i + ROW - 8].ljust(ROW - 8, b"\1"))
    return b"".join(rows)


def cfg_of(rows):
    channels = [f"{i + 1},C{i + 1},A,,V,1,0,0,-32767,32767,1,1,P" for i in range(CHANNELS)]
    lines = ["Judge,1,1999", f"{CHANNELS},{CHANNELS}A,0D", *channels, "50", "1", f"4000,{rows}"]
    lines += ["01/01/2020,00:00:00.000000", "01/01/2020,00:00:00.000000", "BINARY", "1"]
    return "".join(line + "\r\n" for line in lines).encode()


def inflated(stream):
    """What zlib makes of a raw stream that ends where its bytes end, or None."""
    reader = zlib.decompressobj(-15)
    try:
        out = reader.decompress(stream)
    except zlib.error:
        return None
    return out if reader.eof and not reader.unused_data else None


def damaged(rng, stream):
    bad = bytearray(stream)
    way = rng.randrange(5)
    if way == 0:
        return bytes(bad[: rng.randrange(len(bad) + 1)])
    if way == 1:
        at = rng.randrange(len(bad))
        return bytes(bad[:at] + bad[at + 1 :])
    for _ in range(rng.choice((1, 1, 2))):
        bad[rng.randrange(min(len(bad), rng.choice((4, 20, len(bad)))))] ^= 1 << rng.randrange(8)
    return bytes(bad)


class Judge:
    def __init__(self, program, folder):
        self.program, self.folder = os.path.abspath(program), folder
        self.seen, self.wrong = collections.Counter(), 0

    def csv(self, files, name):
        """What csv prints of files of these names."""
        for old in os.listdir(self.folder):
            os.remove(os.path.join(self.folder, old))
        for file, content in files.items():
            with open(os.path.join(self.folder, file), "wb") as out:
                out.write(content)
        done = subprocess.run([self.program, "csv", os.path.join(self.folder, name)],
                              capture_output=True, timeout=600)
        return done.returncode, done.stdout

    def tell(self, what):
        self.wrong += 1
        print(what, flush=True)

    def packed(self, rng, cfg, stream, data):
        """What csv prints of the stream, in a container by chance."""
        kind = rng.choice(("gz", "zip", "cfz"))
        self.seen["in ." + kind] += 1
        if kind == "gz":
            return self.csv({"in.cfg": cfg, "in.dat.gz": gzip_of(rng, stream, data)}, "in.cfg")
        return self.csv({"in." + kind: zip_of(rng, cfg, stream, data)}, "in." + kind)

    def one(self, rng, name):
        data = data_of(samples(rng))
        rows = len(data) // ROW
        form, stream = streams.made(rng, data)
        self.seen[form] += 1
        if inflated(stream) != data:
            self.tell(f"{name}: zlib doesn't read the stream")
            return
        cfg = cfg_of(rows)
        want = self.csv({"in.cfg": cfg, "in.dat": data}, "in.cfg")
        if want[0] != 0 or want[1].count(b"\n") <= rows:
            self.tell(f"{name}: the plain record is not read")
        if self.packed(rng, cfg, stream, data) != want:
            self.tell(f"{name}: {form} differs")
        self.damaged(rng, name, cfg, damaged(rng, stream), data, want)

    def damaged(self, rng, name, cfg, bad, data, want):
        out = inflated(bad)
        self.seen["damaged, zlib reads" if out is not None else "damaged, zlib refuses"] += 1
        status, got = self.packed(rng, cfg, bad, data)
        if out != data and (status != 1 or got) or out == data and (status, got) != want:
            zlib_s = "refuses" if out is None else "reads"
            self.tell(f"{name}: damaged: status {status}, zlib {zlib_s}")
        if out is not None and out != data:
            cfg = cfg_of(len(out) // ROW)
            plain = self.csv({"in.cfg": cfg, "in.dat": out}, "in.cfg")
            self.seen["read with other bytes"] += plain[0] == 0
            if self.packed(rng, cfg, bad, out) != plain:
                self.tell(f"{name}: damaged, with the checksum of what zlib reads: differs")


def main():
    parser = argparse.ArgumentParser(description=__doc__,
                                     formatter_class=argparse.RawDescriptionHelpFormatter)
    parser.add_argument("comtrade")
    parser.add_argument("--count", type=int, default=1000)
    parser.add_argument("--seed", type=int, default=1)
    parser.add_argument("--quick", action="store_true")
    asked = parser.parse_args()
    count = 40 if asked.quick else asked.count
    with tempfile.TemporaryDirectory() as folder:
        judge = Judge(asked.comtrade, folder)
        for n in range(count):
            judge.one(random.Random(asked.seed * 1000003 + n), f"stream {n}")
    print(f"{count} streams: " + ", ".join(f"{k} {what}" for what,
                                           k in sorted(judge.seen.items())))
    print(f"{judge.wrong} wrong")
    return judge.wrong != 0


if __name__ == "__main__":
    sys.exit(main())
