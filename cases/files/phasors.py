"""What `comtrade measure` says of pairs, against least squares in another language: numpy's where it is there, else by Householder's
reflections. python3 phasors.py COMTRADE STEM.. [--at MOMENT]"""
import json
import math
import subprocess
import sys
from fractions import Fraction

sys.path.insert(0, __file__.rsplit("/", 1)[0])
from reader import Record

try:
    import numpy
except ImportError:
    numpy = None


def least_squares(matrix, sides):
    """The parts that leave the least squares, of each list of sides."""
    if numpy is not None:
        return [list(numpy.linalg.lstsq(numpy.array(matrix), numpy.array(side), rcond=None)[0]) for side in sides]
    rows, columns = len(matrix), len(matrix[0])
    a = [list(row) for row in matrix]
    bs = [list(side) for side in sides]
    for k in range(columns):
        size = math.sqrt(math.fsum(a[i][k] ** 2 for i in range(k, rows)))
        v = [a[i][k] for i in range(k, rows)]
        v[0] += math.copysign(size, v[0])
        square = math.fsum(x * x for x in v)
        for j in range(k, columns):
            part = 2 * math.fsum(v[i] * a[k + i][j] for i in range(rows - k)) / square
            for i in range(rows - k):
                a[k + i][j] -= part * v[i]
        for b in bs:
            part = 2 * math.fsum(v[i] * b[k + i] for i in range(rows - k)) / square
            for i in range(rows - k):
                b[k + i] -= part * v[i]
    for b in bs:
        for k in reversed(range(columns)):
            b[k] = (b[k] - math.fsum(a[k][j] * b[j] for j in range(k + 1, columns))) / a[k][k]
    return [b[:columns] for b in bs]


def expected(record, frequency, rate, rows, skews, values):
    """Rms, phasor, dc part, peak and orders of each channel in these rows."""
    a_cycle = Fraction(rate) / Fraction(frequency)
    orders = min(25, (int(a_cycle) - 1) // 2)
    matrix = []
    for i in range(len(rows)):
        angle = 2 * math.pi * float(Fraction(i) / a_cycle % 1)
        matrix.append([1.0] + [g(k * angle) for k in range(1, orders + 1) for g in (math.cos, math.sin)])
    for parts, skew, ys in zip(least_squares(matrix, values), skews, values):
        sizes = [math.hypot(parts[2 * k - 1], parts[2 * k]) / math.sqrt(2) for k in range(1, orders + 1)]
        rest = math.fsum((y - math.fsum(p * m for p, m in zip(parts, line))) ** 2 for y, line in zip(ys, matrix)) / len(ys)
        rms = math.sqrt(parts[0] ** 2 + math.fsum(s * s for s in sizes) + rest)
        turned = complex(parts[1], -parts[2]) / math.sqrt(2) * complex(math.cos(x := -2e-6 * math.pi * float(frequency) * skew), math.sin(x))
        yield rms, turned, parts[0], max(ys, key=abs), sizes


def degrees(phasor, reference):
    return math.degrees(math.atan2((phasor / reference).imag, (phasor / reference).real))


def near(x, y, size):
    return abs(x - y) <= 1e-9 * size


def agree(said, record, frequency, rate, last):
    """Whether a document says what the formulas do."""
    first = said["first_row"] - 1
    assert said["last_row"] == last
    rows = record.rows[first:last]
    places = range(len(record.analog))
    scales = [(float(line[5]), float(line[6])) for line in record.analog]
    values = [[a * int(row[2 + j]) + b for row in rows] for j, (a, b) in zip(places, scales)]
    found = list(expected(record, frequency, rate, rows, [float(line[7]) for line in record.analog], values))
    reference = found[said["reference"] - 1][1]
    well = True
    for channel, orders, (rms, phasor, dc, peak, sizes) in zip(said["channels"], said["harmonics"], found):
        size = abs(peak)
        well = well and near(channel["rms"], rms, rms) and near(channel["magnitude"], abs(phasor), abs(phasor))
        well = well and near(channel["dc"], dc, size) and near(channel["peak"], peak, size)
        turn = (channel["angle"] - degrees(phasor, reference) + 180) % 360 - 180
        well = well and abs(turn) * abs(phasor) <= 1e-9 * 360 * size
        well = well and len(orders["orders"]) == len(sizes) and all(near(x, y, size) for x, y in zip(orders["orders"], sizes))
    a = complex(-0.5, math.sqrt(3) / 2)
    for k, three in enumerate(said["sequences"]):
        x, y, z = (found[3 * k + j][1] for j in range(3))
        size = max(abs(x), abs(y), abs(z))
        for name, phasor in (("positive", x + a * y + a * a * z), ("negative", x + a * a * y + a * z), ("zero", x + y + z)):
            well = well and near(three[name], abs(phasor / 3), size)
            turn = (three[name + "_angle"] - degrees(phasor, reference) + 180) % 360 - 180
            well = well and abs(turn) * abs(phasor) <= 1e-9 * 1080 * size
    return well and len(said["sequences"]) == len(found) // 3


def main(comtrade, stems):
    channels, well = 0, True
    for stem in stems:
        record = Record(stem)
        lines = open(stem + ".cfg", newline="").read().split("\r\n")
        at = 2 + len(record.analog) + len(record.status)
        frequency, rate = lines[at], lines[at + 2].split(",")[0]
        a_cycle = Fraction(rate) / Fraction(frequency)
        cycles = 1
        while int(a_cycle * (cycles + 1)) <= len(record.rows):
            cycles += 1
        for words, last in ((["--at", f"row {len(record.rows)}"], len(record.rows)), (["--from", "row 1"], int(a_cycle * cycles))):
            text = subprocess.run([comtrade, "measure", "--json", *words, stem], capture_output=True, text=True, check=True).stdout
            said = json.loads(text)
            well = agree(said, record, frequency, rate, last) and well
            channels += len(said["channels"])
    print(f"{channels} signals: {'the same' if well else 'NOT the same'}")


main(sys.argv[1], sys.argv[2:])
