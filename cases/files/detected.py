"""Detectors by their definitions over all scans, in fractions of the units.

    detected.py make | dfrd .. setup records; detected.py judge records/*.dat

It knows the set-up of the case and the wave that it makes, and nothing of the programs.
"""
import math
import sys
from fractions import Fraction as F

COUNT, WINDOW = 1500, 20
U, I = F(1, 100), F(1, 2)  # kV and A of a sample
# name, kind, channels, level, reset, for
DETECTORS = [(f"SAG-U{p}", "under", [i], F("53.975"), F("57.155"), 3) for i, p in enumerate("ABC")] + [
    ("OVER", "over", [3], F("700.3"), F("700.3"), 1),
    ("RES", "over", [3, 4, 5], F("60.1"), F("55"), 2),
    ("STEP", "jump", [3], F("500.2"), F("500.2"), 1),
]


def scan(k):
    """The samples of scan k: a sag of UA from 500 ms, a fault current of IA from 800 ms; None where it is lost."""
    if k in (300, 650, 651, 950):
        return None
    voltage = [6350 * (0.7 if i == 0 and 500 <= k < 720 else 1) for i in range(3)]
    current = [1000 * (2.5 if i == 0 and 800 <= k < 1010 else 1) for i in range(3)]
    turn = 2 * math.pi * 50 * k / 1000
    row = [round(a * math.sqrt(2) * math.sin(turn - i % 3 * 2 * math.pi / 3)) for i, a in enumerate(voltage + current)]
    if k == 560:
        row[0] = None  # a missing sample
    return row


def signal(scans, channels):
    """What each scan gives: the sum of its samples; None at a gap."""
    return [None if s is None or any(s[c] is None for c in channels) else sum(s[c] for c in channels) for s in scans]


def met(kind, unit, level, past):
    """Whether the newest of these samples since the last gap meets the level."""
    span = {"over": WINDOW, "under": WINDOW, "jump": 2 * WINDOW + 1}[kind]
    if len(past) < span:
        return False
    if kind == "jump":
        return abs(past[-1] - 2 * past[-1 - WINDOW] + past[-1 - 2 * WINDOW]) * unit >= level
    squares = sum((x * unit) ** 2 for x in past[-WINDOW:])
    return squares >= WINDOW * level**2 if kind == "over" else squares <= WINDOW * level**2


def bits(scans, detector):
    """The bits of a detector."""
    _, kind, channels, level, reset, row = detector
    unit, found, count, on, past = (U if channels[0] < 3 else I), [], 0, False, []
    for x in signal(scans, channels):
        past = [] if x is None else past + [x]
        count = count + 1 if met(kind, unit, level, past) else 0
        on = count >= row or (on and met(kind, unit, reset, past))
        found.append(int(on))
    return found


def main():
    scans = [scan(k) for k in range(COUNT)]
    if sys.argv[1] == "make":
        for s in scans:
            print("lost" if s is None else "scan " + ",".join("*" if x is None else str(x) for x in s) + "/0")
        return
    wanted, rows, wrong = [bits(scans, d) for d in DETECTORS], 0, 0
    for (name, *_), found in zip(DETECTORS, wanted):
        print(name, *[k for k in range(1, COUNT) if found[k] and not found[k - 1]])
    for path in sys.argv[2:]:
        for line in open(path).read().removesuffix("\x1a").splitlines():
            fields = line.split(",")
            k = int(fields[1]) // 1000 + FIRST
            want = [w[k] for w in wanted]
            while scans[k] is None:  # the bits of a lost scan are those of the one before
                k -= 1
                want = [w[k] for w in wanted]
            rows, wrong = rows + 1, wrong + ([int(n) for n in fields[9:]] != want)
    print(rows, "rows,", wrong, "differences")


FIRST = 0
if __name__ == "__main__":
    main()
