"""Records whose cycles have no whole number of rows, with harmonics, dc and skews: python3 records.py FOLDER"""
import math
import sys

sys.path.insert(0, sys.path[0] + "/../../files")
from signals import plus, wave, write  # noqa: E402


def channels(f, skews):
    """Voltages and currents; currents with dc and harmonics; a dc voltage, which has no angle."""
    return [
        ("UA", "A", "", "kV", "0.003", "0", skews[0], wave(f, 63.508, 0)),
        ("UB", "B", "", "kV", "0.003", "0", skews[1], wave(f, 63.508, -120)),
        ("UC", "C", "", "kV", "0.003", "0", skews[2], wave(f, 63.508, 120)),
        ("IA", "A", "", "A", "0.02", "0.5", skews[3], plus(wave(f, 300, -22.92), wave(f, 30, 10, 3))),
        ("IB", "B", "", "A", "0.02", "0", skews[4], plus(wave(f, 300, -142.92), lambda t: 100)),
        ("IC", "C", "", "A", "0.02", "0", skews[5], wave(f, 300, 97.08)),
        ("battery", "", "", "V", "0.02", "0", "0", lambda t: 110),
    ]


def decaying(f, tau, rms, degrees, share=1.0, skew="0", other=None):
    """A current from an inception at 0 on, whose dc part decays; of another frequency where that is given."""
    angle = math.radians(degrees)
    return lambda t: rms * math.sqrt(2) * (math.cos(2 * math.pi * (other or f) * t + angle) - share * math.cos(angle) * math.exp(-t / tau))


def decays(f):
    """Currents whose dc part decays, or doesn't, over a cycle from 0 on."""
    shapes = [(0.045, 0, 1, None), (0.045, 120, 1, None), (0.015, -60, 1, None), (0.1, 200, 1, None), (0.045, 0, 0.1, None),
              (0.045, 30, 0.03, None), (0.045, 0, 0.5, f - 1), (0.045, 90, 0, f - 2), (0.045, 5, 0, f - 2), (0.002, 0, 1, None)]
    return [("UA", "A", "", "kV", "0.003", "0", "0", wave(f, 63.508, 0))] + [
        (f"I{n}", "", "", "A", "0.4", "0", "125" if n == 3 else "0", decaying(f, tau, 3000, angle, share, other=other))
        for n, (tau, angle, share, other) in enumerate(shapes, 1)]


def main(folder):
    none, some = ["0"] * 6, ["0", "0", "37.5", "500", "-500", "1041.7"]
    write(f"{folder}/960-50", "960", "50", channels(50, none), 200, trigger=80)
    write(f"{folder}/800-60", "800", "60", channels(60, none), 200, trigger=80)
    write(f"{folder}/4000-60", "4000", "60", channels(60, some), 400, trigger=160)
    write(f"{folder}/4800-50", "4800", "50", channels(50, some), 400, trigger=160)
    write(f"{folder}/rates", "960", "50", channels(50, some), 200, trigger=80, rates=[("960", 100), ("1920", 200)])
    write(f"{folder}/decay-4800-50", "4800", "50", decays(50), 200, trigger=0)
    write(f"{folder}/decay-4000-60", "4000", "60", decays(60), 200, trigger=0)
    write(f"{folder}/decay-3000-50", "3000", "50", decays(50), 200, trigger=0)
    write(f"{folder}/missing", "960", "50", channels(50, none), 200, trigger=80, missing={(150, 1)})


main(sys.argv[1])
