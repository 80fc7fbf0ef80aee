"""Compares the cells of `comtrade csv` with the samples of files, which Python decodes as fractions.

A line for each record: what it is, the notes on samples and ranges, the greatest error (`exact`, or `a
part of 10^8 of the span` where it's at most that), and the range that `show` prints. Then what `import`
says of the samples of the same record. A missing sample has to be an empty cell."""
import csv
import io
import json
import re
import struct
import subprocess
import sys
from fractions import Fraction

TOOL, FOLDER = sys.argv[1:]
A, B = Fraction("0.5"), Fraction(3)


def float_of(x):
    """The float of 32 bits nearest to a number, as a fraction."""
    return Fraction(struct.unpack("<f", struct.pack("<f", x))[0])


FLT_MAX = Fraction(struct.unpack("<f", b"\xff\xff\x7f\x7f")[0])
WAVE = [float_of(325.27 * s) for s in (0.001, 0.309, 0.588, 0.809, 0.951, 1.0, -0.951, -0.588, -0.309)]
# what it is, the type, the samples as they stand in the file, the range
RECORDS = [
    ("one spike of 1e7", "FLOAT32", [1, 2, 3, 10 ** 7, 2, 1], "-32767,32767"),
    ("halves to 2^30", "FLOAT32", [Fraction(1, 2), 2 ** 30, -(2 ** 30), Fraction(3, 2)], "-32767,32767"),
    ("whole floats to 2^31 - 128", "FLOAT32", [2 ** 31 - 128, 1, -7, 0], "-32767,32767"),
    ("a wave of 325.27", "FLOAT32", WAVE, "-3.4E38,3.4E38"),
    ("a wave with NaN and infinity", "FLOAT32", WAVE[:3] + [None, "inf"] + WAVE[3:], "-32767,32767"),
    ("near 50, and 10 mHz beside it", "FLOAT32", [float_of(50 + x / 100) for x in (0, 0.1, 0.25, -1, 1)], "-32767,32767"),
    ("one FLT_MAX", "FLOAT32", [1, 2, "max", 3, float_of(0.1)], "-32767,32767"),
    ("one -FLT_MAX", "FLOAT32", [1, 2, "-max", 3, float_of(0.1)], "-32767,32767"),
    ("22 digits", "FLOAT32", [-(2 ** 71), Fraction(1, 2 ** 100), 2 ** 70], "-32767,32767"),
    ("24 bits", "BINARY32", [8388607, -8388608, 1, 0, 70001], "-8388608,8388607"),
    ("31 bits", "BINARY32", [2 ** 31 - 1, -(2 ** 31) + 1, 1], "-2147483648,2147483647"),
    ("a missing one of 32 bits", "BINARY32", [100000, None, -1], "-2147483647,2147483647"),
    ("decimals of nine digits", "ASCII", ["1234.56789", "-0.00001", "9999.99999"], "-32767,32767"),
    ("decimals of ten digits", "ASCII", ["12345.67891", "-0.00001", "99999.99999"], "-32767,32767"),
    ("decimals far from 0", "ASCII", ["100000.000000001", "100000.000000002", "100000.0000009"], "-32767,32767"),
    ("whole numbers of seven digits", "ASCII", ["1234567", "-7", "7654321"], "-9999999,9999999"),
    ("whole numbers of twelve digits", "ASCII", ["123456789012", "-7", "7654321"], "-32767,32767"),
]


def number_of(x):
    """What a sample in the list means."""
    if x in (None, "inf", "max", "-max"):
        return None
    return Fraction(x)


def data_of(kind, samples):
    rows = []
    for i, x in enumerate(samples):
        if kind == "ASCII":
            rows.append(b"%d,%d,%s,1\r\n" % (i + 1, 1000 * i, x.encode()))
        elif kind == "BINARY32":
            rows.append(struct.pack("<IIiH", i + 1, 1000 * i, -(1 << 31) if x is None else x, 1))
        else:
            known = {None: float("nan"), "inf": float("inf"), "max": float(FLT_MAX), "-max": -float(FLT_MAX)}
            it = known[x] if x is None or isinstance(x, str) else float(x)
            rows.append(struct.pack("<IIfH", i + 1, 1000 * i, it, 1))
    return b"".join(rows)


def head_of(kind, rows, span):
    lines = ["Kallio,Bay 3,2013", "2,1A,1D", "1,IA,A,,A,0.5,3,0,%s,600,1,P" % span, "1,CB,,,0", "50", "1", "1000,%d" % rows,
             "14/03/2023,01:34:31.853699", "14/03/2023,01:34:31.853699", kind, "1", "0,0", "0,0"]
    return "".join(it + "\r\n" for it in lines).encode()


def run(*words):
    ran = subprocess.run([TOOL, *words], capture_output=True, text=True)
    return ran.returncode, ran.stdout, ran.stderr


def notes_in(text):
    return " ".join(re.findall(r"^((?:values|missing|range)-[a-z0-9-]+): ", text, re.M))


def told_error(text):
    found = re.search(r"^values-rounded: .*by at most ([0-9.]+) A\)", text, re.M)
    return Fraction(found[1]) if found else Fraction(0)


def tried(word, kind, samples, span, number):
    name = "%s/%d" % (FOLDER, number)
    open(name + ".cfg", "wb").write(head_of(kind, len(samples), span))
    open(name + ".dat", "wb").write(data_of(kind, samples))
    status, out, said = run("csv", name)
    if status:
        print("%s: refused: %s" % (word, said.strip()))
        return
    table = list(csv.reader(io.StringIO(out)))
    at = next(i for i, title in enumerate(table[0]) if title.startswith("IA"))
    cells = [row[at] for row in table[1:]]
    wanted = [None if number_of(x) is None else A * number_of(x) + B for x in samples]
    known = [x for x in wanted if x is not None]
    if [it == "" for it in cells] != [x is None for x in wanted]:
        print("%s: other cells are empty: %r" % (word, cells))
        return
    off = max(abs(Fraction(cell) - x) for cell, x in zip(cells, wanted) if x is not None)
    part = (max(known) - min(known)) / 10 ** 8
    error = "exact" if off == 0 else "a part of 10^8 of the span" if off <= part else "off by %g" % off
    is_told = "" if off <= told_error(said) else ", but not told"
    shown = json.loads(run("show", "--json", name)[1])["analog"][0]
    bounds = "%d to %d" % (shown["min"], shown["max"])
    print("%s, %s: %s: %s%s; %s" % (word, kind, notes_in(said), error, is_told, bounds))
    status, out, said = run("import", name, name + "-new")
    print("  import: %s" % (notes_in(out) if status == 0 else said.strip()))


for its_number, (its_word, its_kind, its_samples, its_span) in enumerate(RECORDS):
    tried(its_word, its_kind, its_samples, its_span, its_number)
