"""Records of faults whose times are known: python3 records.py FOLDER"""
import math
import sys

sys.path.insert(0, sys.path[0] + "/../../files")
from signals import plus, then, wave, write  # noqa: E402

LOAD, FAULT = wave(50, 300, -30), wave(50, 3000, -80)


def nothing(_):
    return 0


def stamp(name, time):
    """Writes other stamps into a data file: those of this function of a row's index."""
    with open(name, newline="") as file:
        rows = [line.split(",") for line in file.read().splitlines()]
    with open(name, "w", newline="") as file:
        file.write("".join(",".join([cells[0], str(time(i)), *cells[2:]]) + "\r\n" for i, cells in enumerate(rows)))


def until(*steps):
    """A signal that is the first wave until the first time, then the second, and so on."""
    return lambda t: next(signal(t) for end, signal in steps if t < end)


def current(name, signal, unit="A"):
    return (name, "", "", unit, "0.5", "0", "0", signal)


def twice(folder):
    """A reclosure onto the fault, 330 ms after it was cleared: phase A; a phase that opens, and closes onto its load: phase B."""
    a = until((0.1, LOAD), (0.17, FAULT), (0.5, nothing), (0.57, FAULT), (9, nothing))
    b = until((0.17, LOAD), (0.5, nothing), (9, LOAD))
    write(f"{folder}/twice", "1200", "50", [current("IA", a), current("IB", b), current("IC", LOAD)], 900, trigger=120)


def missing(folder):
    """Readings are missing before the fault, and on it."""
    fault = until((0.1, LOAD), (0.2, FAULT), (9, LOAD))
    lost = {(30, 0), (150, 1)} | {(row, 3) for row in range(360)}
    channels = [current("early", fault), current("on it", fault), current("healthy", LOAD), current("none", LOAD)]
    write(f"{folder}/missing", "1200", "50", channels, 360, trigger=120, missing=lost | {(100, 2), (101, 2)})


def units(folder):
    fault = then(0.1, LOAD, FAULT)
    names = ["Amps", "a", "A rms", "A sec", "KAMPS", "mA(pri)", "amp.", "kA", "A/s", "VA", "m", "ARC"]
    write(f"{folder}/units", "1200", "50", [current(f"c{n}", fault, unit) for n, unit in enumerate(names)], 300, trigger=120)


def rates(folder):
    """Two rates: the fault is within the second one."""
    time = lambda t: t if t < 0.2 else 0.2 + (t - 0.2) * 1200 / 2400
    fault = until((0.25, LOAD), (0.31, FAULT), (9, LOAD))
    channels = [current("IA", lambda t: fault(time(t))), current("IB", lambda t: LOAD(time(t)))]
    write(f"{folder}/rates", "1200", "50", channels, 720, trigger=240, rates=[("1200", 240), ("2400", 720)])
    stamp(f"{folder}/rates.dat", lambda row: round(time(row / 1200) * 1e6))


def drift(folder):
    """From 50 to 47.5 Hz within 2.5 s, without a fault; and with one at 2 s."""
    turned = lambda t: math.cos(2 * math.pi * (50 * t - t * t / 2)) * 300 * math.sqrt(2)
    fault = lambda t: turned(t) * (10 if 2 <= t < 2.08 else 1)
    write(f"{folder}/drift", "1200", "50", [current("IA", turned), current("IB", fault)], 3000, trigger=1200)


def slow(folder):
    """A steady voltage of 47.5 Hz where the file says 50; a current of 50 Hz."""
    channels = [("UA", "A", "", "kV", "0.01", "0", "0", wave(47.5, 63.5, 0)), current("IA", plus(LOAD, wave(50, 3, 0, 5)))]
    write(f"{folder}/slow", "1200", "50", channels, 360, trigger=120)


def main(folder):
    for record in (twice, missing, units, rates, drift, slow):
        record(folder)


main(sys.argv[1])
