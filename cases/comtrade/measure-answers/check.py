"""Whether what is measured is what was written down: python3 check.py COMTRADE FOLDER"""
import cmath
import json
import math
import subprocess
import sys
from decimal import Decimal, getcontext
from fractions import Fraction

from records import FAULT, FEEDER, FREQUENCIES, INRUSH, RAIL, components, phasors

sys.path.insert(0, sys.path[0] + "/../../files")
from reader import Record  # noqa: E402

getcontext().prec = 50
comtrade, folder = sys.argv[1:]


def measured(stem, *words):
    text = subprocess.run([comtrade, "measure", "--json", *words, f"{folder}/{stem}"], capture_output=True, text=True, check=True).stdout
    return json.loads(text)


def turned(angle):
    return abs((angle + 180) % 360 - 180)


def said(name, worst, bounds):
    """The name, and whether no error exceeds its bound; the errors that do are printed."""
    far = [f"{error:.4f} for {bound}" for error, bound in zip(worst, bounds) if not error <= bound]
    print(f"{name}:", ", ".join(far) or "as written down")


def phasor_errors(known, found):
    """The greatest errors of rms values and magnitudes in percent, of angles in degrees."""
    sizes, angles = [], []
    for (_, _, _, rms, degrees), channel in zip(known, found["channels"]):
        sizes += [abs(channel["magnitude"] / rms - 1) * 100]
        angles.append(turned(channel["angle"] - degrees + known[0][4]))
    return max(sizes), max(angles)


def sequence_errors(known, found):
    """The same of sequence components, by the greatest of the three."""
    sizes, angles = [], []
    for k, three in enumerate(found["sequences"]):
        wanted = components(phasors(known[3 * k:3 * k + 3]))
        most = max(map(abs, wanted))
        for name, phasor in zip(("positive", "negative", "zero"), wanted):
            sizes.append(abs(three[name] - abs(phasor)) / most * 100)
            if abs(phasor) > 0.01 * most:
                angles.append(turned(three[name + "_angle"] - math.degrees(cmath.phase(phasor)) + known[0][4]))
    return max(sizes), max(angles)


def ratio(found, order):
    return max(abs(it["orders"][order - 1] / it["orders"][0]) * 100 for it in found["harmonics"])


def exact_errors(stem, found):
    """How many channels have an rms value further than 3 units of the last place from the root of the rows' mean square."""
    record = Record(f"{folder}/{stem}")
    rows, far = record.rows[found["first_row"] - 1:found["last_row"]], 0
    for k, channel in enumerate(found["channels"]):
        a, b = Fraction(record.analog[k][5]), Fraction(record.analog[k][6])
        mean = sum((a * int(row[2 + k]) + b) ** 2 for row in rows) / len(rows)
        root = (Decimal(mean.numerator) / Decimal(mean.denominator)).sqrt()
        far += abs(Decimal(channel["rms"]) - root) > 3 * Decimal(math.ulp(channel["rms"]))
    return far


for stem in ("off", "waves"):
    for f in FREQUENCIES:
        for words in (["--at=row 700"], ["--from=row 1", "--to=row 960"]):
            found = measured(f"{stem}{f}", *words, "--frequency=measured")
            errors = (*phasor_errors(FEEDER, found), *sequence_errors(FEEDER, found), abs(found["frequency"] - f))
            said(f"{f} Hz{' with harmonics' * (stem == 'waves')}, {found['cycles']} cycles", errors, (0.1, 0.1, 0.1, 0.1, 0.002))
for f in FREQUENCIES:
    found = measured(f"off{f}", "--at=row 700", f"--frequency={f}")
    said(f"{f} Hz as given", (*phasor_errors(FEEDER, found), abs(found["frequency_measured"] - f)), (0.1, 0.1, 0.002))
    said(f"{f} Hz, second harmonic", [ratio(found, 2)], [0.05])
for stem in ("fault", "fault960", "fault4444", "fault60"):
    for words in (["--at=row 96"], ["--from=row 1", "--to=row 96"]):
        found = measured(stem, *words)
        said(f"{stem} {words[0]}", (*phasor_errors(FAULT, found), *sequence_errors(FAULT, found)), (0.02, 0.02, 0.02, 0.02))
for words in (["--at=row 400"], ["--from=row 1", "--to=row 600"]):
    said(f"16.7 Hz {words[0]}", phasor_errors(RAIL, measured("rail", *words)), (0.01, 0.01))
known = {name: known for name, *known in FEEDER}
for names in ("UC,UB,UA", "ic, ia, ib"):
    ids = [name.strip().upper() for name in names.split(",")]
    (three,) = measured("off50", "--at=row 700", f"--phases={names}")["sequences"]
    wanted = components([cmath.rect(known[it][2], math.radians(known[it][3])) for it in ids])
    errors = [abs(three[name] - abs(phasor)) for name, phasor in zip(("positive", "negative", "zero"), wanted)]
    said(f"--phases {names}, as {three['a']} {three['b']} {three['c']}", errors, (0.01, 0.01, 0.01))
(three,) = measured("off50", "--at=row 700", "--phases=4,5,6")["sequences"]
said(f"--phases by number, {three['a']} {three['b']} {three['c']}", [abs(three["positive"] - 300)], [0.01])
found = measured("inrush", "--at=row 200")
orders = found["harmonics"][0]["orders"]
said("harmonics", [max(abs(size - wanted) for size, wanted in zip(orders, INRUSH)), max(orders[5:]), abs(found["channels"][0]["dc"] - 60)], (0.02, 0.02, 0.02))
for stem, words in (("fault", ["--from=row 1", "--to=row 480"]), ("off47.5", ["--at=row 700"]), ("inrush", ["--at=row 100"])):
    print(f"{stem}: {exact_errors(stem, measured(stem, *words))} rms values off")
