"""Imports channels whose samples are multiples of one step from the least of them, and compares a·x + b with the samples, as fractions.

A line for each: the samples, the form, the notes on samples, and the greatest difference, in halves of a step of 65,533 between the least
and the greatest: 0 where the values are exact, at most 1 (and a millionth) where they are rounded."""
import re
import struct
import subprocess
import sys
from fractions import Fraction

TOOL, FOLDER = sys.argv[1:]
SAMPLES = {
    "quarters to 8000": [Fraction(n, 4) for n in (-32000, -31999, 0, 17, 31999)],
    "sixteens to 500000": [Fraction(16 * n) for n in (-31250, -1, 0, 5, 31250)],
    "halves far from 0": [1000000 + Fraction(n, 2) for n in (0, 1, 7, 60001, 65534)],
    "65,534 steps of 3": [Fraction(3 * n + 1) for n in (0, 1, 65533, 65534)],
    "65,535 steps of 3": [Fraction(3 * n + 1) for n in (0, 1, 65534, 65535)],
    "steps of 2^40": [Fraction(n * 2 ** 40) for n in (-20000, 1, 2, 20000)],
    "a missing one": [Fraction(n, 8) for n in (-30000, 30001)] + [None, Fraction(3)],
    "no common step": [Fraction(struct.unpack("<f", struct.pack("<f", x))[0]) for x in (-123.456, 0.001, 77.7, 123.456)],
}
A, B = Fraction(1, 2), Fraction(3)


def float_row(i, x):
    return struct.pack("<IIfH", i + 1, 1000 * i, float("nan") if x is None else float(x), 1)


def head(kind, rows):
    lines = ["Kallio,Bay 3,2013", "2,1A,1D", "1,IA,A,,A,0.5,3,0,-32767,32767,600,1,P", "1,CB,,,0", "50", "1", "1000,%d" % rows,
             "14/03/2023,01:34:31.853699", "14/03/2023,01:34:31.855699", kind, "1", "0,0", "0,0"]
    return "".join(it + "\r\n" for it in lines).encode()


def written(name):
    """The values of what was written."""
    fields = open(name + ".cfg", newline="").read().split("\r\n")
    line, kind = fields[2].split(","), fields[9]
    data = open(name + ".dat", "rb").read()
    if kind == "ASCII":
        cells = [it.split(",")[2] for it in data.decode().rstrip("\x1a").split("\r\n") if it]
        samples = [None if it == "99999" else int(it) for it in cells]
    else:
        samples = [struct.unpack_from("<h", data, at + 8)[0] for at in range(0, len(data), 12)]
        samples = [None if it == -32768 else it for it in samples]
    assert all(it is None or int(line[8]) <= it <= int(line[9]) for it in samples), "outside the range"
    return [None if it is None else Fraction(line[5]) * it + Fraction(line[6]) for it in samples]


def tried(word, kind, row):
    name = "%s/%s-%s" % (FOLDER, kind, word.replace(" ", "-").replace(",", ""))
    samples = SAMPLES[word]
    open(name + ".cfg", "wb").write(head(kind, len(samples)))
    open(name + ".dat", "wb").write(b"".join(row(i, x) for i, x in enumerate(samples)))
    ran = subprocess.run([TOOL, "import", name + ".cfg", name + ".dat", name + "-out"], capture_output=True, text=True)
    if ran.returncode != 0:
        print("%s, %s: refused: %s" % (word, kind, (ran.stdout + ran.stderr).strip()))
        return
    notes = [it for it in re.findall(r"^([a-z0-9-]+): .*\(.*\)$", ran.stdout + ran.stderr, re.M) if it.startswith("values")]
    values = written(name + "-out")
    there = [it for it in samples if it is not None]
    step = Fraction(max(there) - min(there), 65533) * A
    same = [v is None for v in values] == [x is None for x in samples]
    worst = max(abs(v - (A * x + B)) for v, x in zip(values, samples) if x is not None and v is not None)
    verdict = "exact" if worst == 0 else "rounded" if worst <= step / 2 * Fraction(1000001, 1000000) else "off"
    print("%s, %s: %s: %s" % (word, kind, " ".join(notes), verdict if same else "a missing sample differs"))


for its_word in SAMPLES:
    tried(its_word, "FLOAT32", float_row)
