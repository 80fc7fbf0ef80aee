"""Records whose rms values, phasors, harmonics, sequences and frequencies are written down: python3 records.py FOLDER"""
import cmath
import math
import sys

sys.path.insert(0, sys.path[0] + "/../../files")
from signals import plus, wave, write  # noqa: E402

FREQUENCIES = (47.5, 48, 48.5, 49, 49.2, 49.7, 50, 50.3, 51, 52)
# id, unit, step, rms value and angle
FEEDER = (("UA", "kV", "0.002", 63.508, 0), ("UB", "kV", "0.002", 63.508, -120), ("UC", "kV", "0.002", 63.508, 120),
          ("IA", "A", "0.01", 300, -18), ("IB", "A", "0.01", 300, -138), ("IC", "A", "0.01", 300, 102))
FAULT = (("UA", "kV", "0.002", 28.66, -4.94), ("UB", "kV", "0.002", 65.86, -127.3), ("UC", "kV", "0.002", 65.8, 120.04),
         ("IA", "A", "0.1", 2478.5, -75.4), ("IB", "A", "0.1", 330.4, -116.8), ("IC", "A", "0.1", 338.6, 124.2))
RAIL = (("U", "kV", "0.0005", 15, 0), ("I", "A", "0.2", 6000, -80.214))
INRUSH = (100, 55, 20, 9, 7)


def channels(known, f, more=lambda name, rms, degrees: ()):
    return [(name, name[1:], "Line", unit, step, "0", "0", plus(wave(f, rms, degrees), *more(name, rms, degrees)))
            for name, unit, step, rms, degrees in known]


def with_harmonics(f):
    return lambda name, rms, degrees: (wave(f, 0.05 * rms, 20, 5), wave(f, 0.03 * rms, 70, 7))


def components(phasors):
    """Positive, negative and zero sequence of three phasors."""
    a, b, c = phasors
    turn = cmath.exp(2j * math.pi / 3)
    return (a + turn * b + turn**2 * c) / 3, (a + turn**2 * b + turn * c) / 3, (a + b + c) / 3


def phasors(known):
    return [cmath.rect(rms, math.radians(degrees)) for _, _, _, rms, degrees in known]


def main(folder):
    for f in FREQUENCIES:
        write(f"{folder}/off{f}", "4800", 50, channels(FEEDER, f), 1200)
        write(f"{folder}/waves{f}", "4800", 50, channels(FEEDER, f, with_harmonics(f)), 1200)
    write(f"{folder}/fault", "4800", 50, channels(FAULT, 50), 480)
    write(f"{folder}/fault960", "960", 50, channels(FAULT, 50), 96)
    write(f"{folder}/fault4444", "4444", 50, channels(FAULT, 50), 444)
    write(f"{folder}/fault60", "4000", 60, channels(FAULT, 60), 400)
    write(f"{folder}/rail", "2000", "16.7", channels(RAIL, 16.7), 600)
    waves = [wave(50, size, 40 * order, order) for order, size in enumerate(INRUSH, 1)]
    inrush = [("IA", "A", "", "A", "0.01", "0", "0", plus(lambda t: 60, *waves))]
    write(f"{folder}/inrush", "4800", 50, inrush, 480)
    step = [(name, name[1:], "", "kV", "0.002", "0", "0", lambda t, w=wave(50, 60, angle): w(t) if t < 0.1 else 0.3 * w(t + 0.002))
            for name, angle in (("UA", 0), ("UB", -120), ("UC", 120))]
    write(f"{folder}/jump", "4800", 50, step, 960)


if __name__ == "__main__":
    main(sys.argv[1])
