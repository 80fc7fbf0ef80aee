"""An hour of a line of 110 kV in which nothing happens, and then five disturbances, as a BINARY record of 1000 scans a second.

    quiet_hour.py make FOLDER [SECONDS]    FOLDER/hour.cfg and .dat, and FOLDER/lines; the quiet time has so many seconds
    quiet_hour.py judge FOLDER [SECONDS]   what FOLDER/told, printed by `comtrade detect`, says of the quiet time, and of each detector

The frequency wanders by 50 mHz, the load between 240 and 420 A; voltages and currents have harmonics and noise. Each detector whose
disturbance comes has to fire within a period of it, or as many as its frequency is taken over, and its row; all others never.
"""
import math
import random
import sys
from array import array

RATE, PERIOD, TURN = 1000, 20, 100_000  # a table has so many samples of one turn; a step of 5000 is 50 Hz
RATED = 63.5
ORDERS = {"second": 2, "third": 3, "fifth": 5, "seventh": 7}
INRUSH = 2  # the shape of such a current
MIDDLE = 512  # noise is kept with so much added, and waves with 32768 less that
LINES = """detect SAG rms under 0.85 of 63.5 kV of UA,UB,UC for 5 reset 0.9 of 63.5 kV
detect SWELL rms over 1.2 of 63.5 kV of UA,UB,UC reset 1.15 of 63.5 kV
detect OVER rms over 1.5 of 600 A of IA,IB,IC reset 1.4 of 600 A
detect EARTH rms over 0.1 of 600 A of IA+IB+IC for 10
detect WAVE rms over 6 of UA+UB+UC for 10
detect JUMP jump 150 of IA,IB,IC
detect LOAD change 1500 of IA window 10
detect LOW frequency under 49.5 of UA for 20 reset 49.7 least 0.1 of 63.5 kV
detect HIGH frequency over 50.5 of UA for 20 reset 50.3 least 0.1 of 63.5 kV
detect DRIFT frequency change 1 of UB cycles 5 least 0.1 of 63.5 kV
detect INRUSH harmonic 2 over 15 of IA,IB,IC for 20 reset 12 least 0.2 of 600 A
detect FIFTH harmonic 5 over 30 of IA,IB,IC for 20 least 0.1 of 600 A
detect NEG negative over 0.1 of 600 A of IA+IB+IC for 10
detect ZERO zero over 0.1 of 63.5 kV of UA+UB+UC for 10
detect LESS positive under 0.85 of 63.5 kV of UA+UB+UC for 5 reset 0.9 of 63.5 kV
detect OPEN unbalance over 20 of IA+IB+IC for 20 reset 15 least 0.1 of 600 A
"""
# the detectors and, of those that have to fire, how many seconds after the quiet time their disturbance begins, and within how many scans they fire
DUE = {
    "SAG-UA": (0, PERIOD + 5), "OVER-IA": (0, PERIOD), "EARTH": (0, PERIOD + 10), "WAVE": (0, PERIOD + 10), "JUMP-IA": (0, PERIOD),
    "LOAD": (0, PERIOD), "NEG": (0, PERIOD + 10), "ZERO": (0, PERIOD + 10), "LESS": (0, PERIOD + 5), "OPEN": (0, PERIOD + 20), "SWELL-UB": (2, PERIOD), "LOW": (4, 11 * PERIOD + 20), "DRIFT": (4, 11 * PERIOD), "HIGH": (8, 11 * PERIOD + 20),
    "INRUSH-IA": (11, PERIOD + 20),
}
ALL = [*(f"SAG-U{p}" for p in "ABC"), *(f"SWELL-U{p}" for p in "ABC"), *(f"OVER-I{p}" for p in "ABC"), "EARTH", "WAVE",
       *(f"JUMP-I{p}" for p in "ABC"), "LOAD", "LOW", "HIGH", "DRIFT", *(f"{name}-I{p}" for name in ("INRUSH", "FIFTH") for p in "ABC"),
       "NEG", "ZERO", "LESS", "OPEN"]


def turn(**parts):
    """A turn of a wave of peak 1, with these shares of harmonics."""
    waves = [(1, 1.0)] + [(ORDERS[name], part) for name, part in parts.items()]
    return [sum(part * math.sin(2 * math.pi * n * k / TURN) for n, part in waves) for k in range(TURN)]


def sums(waves, noise):
    """Their sums, which lie around 32768, less that: all in one addition of long numbers, whose digits of 16 bits don't carry."""
    total = int.from_bytes(waves.tobytes(), sys.byteorder) + int.from_bytes(noise.tobytes(), sys.byteorder)
    middle = int.from_bytes(array("H", [32768]).tobytes() * len(waves), sys.byteorder)
    return array("h", (total ^ middle).to_bytes(2 * len(waves), sys.byteorder))


class Line:
    """The samples of six channels, block after block."""

    def __init__(self, rng):
        self.rng, self.at = rng, [0, 2 * TURN // 3, TURN // 3, 0, 2 * TURN // 3, TURN // 3]
        self.shapes, self.tables = [turn(fifth=0.02, seventh=0.01), turn(fifth=0.03, seventh=0.02), turn(second=0.55, third=0.2)], {}
        self.noise = [array("H", (MIDDLE + round(rng.gauss(0, size)) for _ in range(131_071))) for size in (12, 6)]

    def table(self, shape, size):
        """A turn in samples, whose first harmonic has so many kV rms with 0.01 kV each, or A with 0.5 A each."""
        if (shape, size) not in self.tables:
            peak = size * math.sqrt(2) / (0.01, 0.5, 0.5)[shape]
            self.tables[shape, size] = array("H", (32768 - MIDDLE + round(peak * x) for x in self.shapes[shape]))
        return self.tables[shape, size]

    def channel(self, i, size, step, scans):
        table, found, at = self.table(*(size if isinstance(size, tuple) else (i // 3, size))), array("H"), self.at[i]
        while len(found) < scans:
            part = table[at::step]
            found.extend(part)
            at += len(part) * step - TURN
        extra = len(found) - scans
        self.at[i] = (at - extra * step) % TURN
        noise, since = self.noise[i // 3], self.rng.randrange(131_071 - scans)
        return sums(found[:scans], noise[since:since + scans])

    def block(self, first, sizes, step, scans):
        """The rows of so many scans from number `first` on: a number, a time in microseconds, six samples."""
        rows = array("h", bytes(20 * scans))
        numbers = array("I", range(first + 1, first + scans + 1))
        times = array("I", range(first * 1000, (first + scans) * 1000, 1000))
        for place, words in ((0, numbers), (2, times)):
            halves = array("h", words.tobytes())
            rows[place::10], rows[place + 1::10] = halves[::2], halves[1::2]
        for i, size in enumerate(sizes):
            rows[4 + i::10] = self.channel(i, size, step, scans)
        return rows


def blocks(rng, seconds):
    """Of each block its six rms values, or shapes with theirs; its step, and its scans."""
    load, wander = 330, 0
    for _ in range(seconds):
        load = min(420, max(240, load + rng.choice([-40, -10, -10, 0, 0, 0, 10, 10, 40])))
        wander = min(5, max(-5, wander + rng.choice([-1, 0, 0, 1])))
        yield [RATED] * 3 + [load] * 3, 5000 + wander, RATE
    quiet = [RATED] * 3 + [load] * 3
    yield [30, RATED, RATED, 2500, load, load], 5000, RATE // 2
    yield quiet, 5000, 3 * RATE // 2
    yield [RATED, 80, RATED, load, load, load], 5000, RATE
    yield quiet, 5000, RATE
    for step in (4880, 5000, 5120):
        yield quiet, step, 2 * RATE
    yield quiet, 5000, RATE
    yield [RATED] * 3 + [(INRUSH, load), load, load], 5000, RATE


def make(folder, seconds):
    rng = random.Random(110)
    line, first = Line(rng), 0
    with open(f"{folder}/hour.dat", "wb") as file:
        for sizes, step, scans in blocks(rng, seconds):
            rows = line.block(first, sizes, step, scans)
            if sys.byteorder == "big":
                rows.byteswap()
            file.write(rows.tobytes())
            first += scans
    cfg = ["hour,line,1999", "6,6A,0D"]
    for i, ident in enumerate(("UA", "UB", "UC", "IA", "IB", "IC")):
        cfg.append(f"{i + 1},{ident},{ident[1]},,{('kV,0.01', 'A,0.5')[i // 3]},0,0,-32767,32767,1,1,P")
    cfg += ["50", "1", f"{RATE},{first}", "01/07/2024,10:00:00.000000", "01/07/2024,10:00:00.000000", "BINARY", "1"]
    with open(f"{folder}/hour.cfg", "w", newline="") as file:
        file.write("".join(text + "\r\n" for text in cfg))
    with open(f"{folder}/lines", "w") as file:
        file.write(LINES)


def judge(folder, seconds):
    first, quiet, told = {}, 0, set()
    for text in open(f"{folder}/told"):
        name, *rest = text.split()
        told.add(name)
        if rest != ["never"]:
            scan = int(rest[rest.index("scan") + 1])
            quiet += scan < seconds * RATE
            first.setdefault(name, scan)
    print(f"{len(told & set(ALL))} of {len(ALL)} detectors told, {len(told - set(ALL))} others; in the quiet time {quiet} fired")
    for name in ALL:
        if name not in DUE and name in first:
            print(f"{name} fired at scan {first[name]}")
        if name in DUE:
            since, most = DUE[name]
            after = first[name] - (seconds + since) * RATE if name in first else None
            print(f"{name} {'in time' if after is not None and 0 <= after <= most else f'after {after} scans, at most {most}'}")


if __name__ == "__main__":
    {"make": make, "judge": judge}[sys.argv[1]](sys.argv[2], int(sys.argv[3]) if len(sys.argv) > 3 else 3600)
