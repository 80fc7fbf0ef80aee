"""Writes pairs whose head names a type that the data are not, imports each, and compares a·x + b with the samples, as fractions.

A line for each: the head's type, the data, the notes, and whether the values are exact. One that is not held exactly may be off by half a
step at most: (greatest - least) / 65533 in its ninth digit rounded up, so at most a millionth more."""
import re
import struct
import subprocess
import sys
from fractions import Fraction

TOOL, FOLDER = sys.argv[1:]
# the samples of one channel: what fits as it is, what a power of ten makes fit, what nothing makes fit, and what has no sign
SAMPLES = {
    "small": [-903, -465, 325, 871],
    "wide": [100000, -200000, 300000, -9900000],
    "steps": [-1234567, 7654321, 3, 99999999],
    "points": [Fraction(-25, 10), Fraction(125, 100), 3, 40],
    "unsigned": [65535, 40000, 1, 33000],
}
A, B = Fraction(1, 2), Fraction(3)


def decimal(x):
    """A fraction of tenths or hundredths as text."""
    return str(x) if Fraction(x).denominator == 1 else "%.2f" % float(x)


def text(samples):
    return "".join("%d,%d,%s,1\r\n" % (i + 1, 1000 * i, decimal(x)) for i, x in enumerate(samples)).encode()


def short(samples):
    return b"".join(struct.pack("<IIHH", i + 1, 1000 * i, x % 65536, 1) for i, x in enumerate(samples))


def head(kind, low, high):
    lines = ["Kallio,Bay 3,1999", "2,1A,1D", "1,IA,A,,A,0.5,3,0,%d,%d,600,1,P" % (low, high), "1,CB,,,0", "50", "1", "1000,4",
             "14/03/2023,01:34:31.853699", "14/03/2023,01:34:31.855699", kind, "1"]
    return "".join(it + "\r\n" for it in lines).encode()


def read(name):
    """a, b and the samples of what was written, None for missing ones."""
    fields = open(name + ".cfg", newline="").read().split("\r\n")
    line, kind = fields[2].split(","), fields[9]
    data = open(name + ".dat", "rb").read()
    if kind == "ASCII":
        cells = [it.split(",")[2] for it in data.decode().rstrip("\x1a").split("\r\n") if it]
        samples = [None if it in ("", "99999") else int(it) for it in cells]
    else:
        samples = [struct.unpack_from("<h", data, at + 8)[0] for at in range(0, len(data), 12)]
        samples = [None if it == -32768 else it for it in samples]
    if not all(it is None or int(line[8]) <= it <= int(line[9]) for it in samples):
        print("outside the range")
    return Fraction(line[5]), Fraction(line[6]), samples


def verdict(samples, name):
    a, b, got = read(name)
    if len(got) != len(samples) or None in got:
        return "rows or samples are missing"
    off = max(abs(a * x + b - (A * want + B)) for x, want in zip(got, samples))
    if off == 0:
        return "exact"
    most = Fraction(max(samples) - min(samples), 65533) / 2 * A
    return "within half a step" if off <= most * Fraction(1000001, 1000000) else "off by %s" % off


def tried(kind, word, form, low, high):
    name = "%s/%s-%s-%s" % (FOLDER, kind, word, form.__name__)
    open(name + ".cfg", "wb").write(head(kind, low, high))
    open(name + ".dat", "wb").write(form(SAMPLES[word]))
    ran = subprocess.run([TOOL, "import", name + ".cfg", name + ".dat", name + "-out"], capture_output=True, text=True)
    notes = re.findall(r"^([a-z0-9-]+): .*\(.*\)$", ran.stdout + ran.stderr, re.M)
    told = verdict(SAMPLES[word], name + "-out") if ran.returncode == 0 else (ran.stdout + ran.stderr).strip()
    print("%s over %s, %s: %s: %s" % (kind, form.__name__, word, " ".join(notes), told))


for its_kind in ["ASCII", "BINARY", "BINARY32", "FLOAT32"]:
    for its_word in ["small", "wide", "steps", "points"]:
        tried(its_kind, its_word, text, -99999, 99998)
for its_kind in ["ASCII", "BINARY32", "FLOAT32"]:
    tried(its_kind, "small", short, -32767, 32767)
    tried(its_kind, "unsigned", short, 0, 65535)
