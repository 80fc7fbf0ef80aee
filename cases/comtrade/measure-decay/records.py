"""Currents after a fault inception at 0, whose dc part decays, and sines of other frequencies: python3 records.py FOLDER
Their phasors are known: they are written down from the formula."""
import math
import sys

sys.path.insert(0, sys.path[0] + "/../../files")
from signals import write  # noqa: E402

PEAK = 6000


def inductive(f, tau, angle, other=None, share=1.0, harmonics=()):
    """A current of an inductive circuit that is closed at 0: it begins at 0, since the dc part is the sine's value there, times -share."""
    phi = math.radians(angle)
    return lambda t: PEAK * (math.cos(2 * math.pi * (other or f) * t + phi) - share * math.cos(phi) * math.exp(-t / tau)
                             + sum(size * math.cos(2 * math.pi * f * order * t + order) for order, size in harmonics))


def record(stem, rate, f, currents, step="0.5"):
    reference = ("U", "", "", "kV", "0.001", "0", "0", lambda t: 90 * math.cos(2 * math.pi * f * t))
    channels = [reference] + [(f"I{n}", "", "", "A", step, "0", "0", current) for n, current in enumerate(currents, 1)]
    write(stem, rate, f, channels, 6 * int(float(rate) / f), trigger=0)


ANGLES = range(0, 360, 10)


def main(folder):
    for tau in (15, 45, 100):
        record(f"{folder}/tau{tau}", "4800", 50, [inductive(50, tau / 1000, angle) for angle in ANGLES])
    record(f"{folder}/sixty", "4000", 60, [inductive(60, 0.045, angle) for angle in ANGLES])
    waves = ((2, 0.2), (3, 0.05), (5, 0.05), (7, 0.03))
    record(f"{folder}/inrush", "4800", 50, [inductive(50, 0.045, angle, harmonics=waves) for angle in ANGLES])
    record(f"{folder}/few", "1600", 50, [inductive(50, 0.045, angle) for angle in ANGLES])
    for other in (45, 47.5, 48, 49, 49.8, 50.2, 51, 52, 55):
        record(f"{folder}/off{other}", "4800", 50, [inductive(50, 1, angle, other, 0) for angle in ANGLES])


if __name__ == "__main__":
    main(sys.argv[1])
