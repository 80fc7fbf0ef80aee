"""Pairs of files whose rms values, phasors and harmonics are known on paper: python3 signals.py FOLDER"""
import math
import random
import sys


def write(stem, rate, frequency, channels, rows, trigger=0, missing=(), rates=None, nrates=1, contacts=(), names="Hill,Bay 1",
          begun="10:30:00", endings=(".cfg", ".dat")):
    """Channels: id, phase, component, unit, a, b, skew in us, and the value at t seconds; contacts: id, and whether it is 1 at t."""
    rates = rates or [(rate, rows)]
    with open(stem + endings[0], "w", newline="") as out:
        lines = [names + ",1999", f"{len(channels) + len(contacts)},{len(channels)}A,{len(contacts)}D"]
        for n, (name, phase, component, unit, a, b, skew, _) in enumerate(channels, 1):
            lines.append(f"{n},{name},{phase},{component},{unit},{a},{b},{skew},-99999,99998,600,1,P")
        lines += [f"{n},{name},,,0" for n, (name, _) in enumerate(contacts, 1)]
        lines += [str(frequency), str(nrates if nrates == 0 else len(rates))]
        lines += [f"{samp},{last}" for samp, last in rates]
        us = round(trigger * 1e6 / float(rate)) if float(rate) else 0
        lines += [f"01/07/2024,{begun}.000000", f"01/07/2024,{begun[:6]}{int(begun[6:]) + us / 1e6:09.6f}", "ASCII", "1"]
        out.write("\r\n".join(lines) + "\r\n")
    with open(stem + endings[1], "w", newline="") as out:
        for i in range(rows):
            t = i / (float(rate) or 1000)
            cells = []
            for j, (_, _, _, _, a, b, skew, value) in enumerate(channels):
                sample = round((value(t + float(skew) * 1e-6) - float(b)) / float(a))
                cells.append("99999" if (i, j) in missing else str(sample))
            cells += ["1" if is_set(t) else "0" for _, is_set in contacts]
            out.write(f"{i + 1},{round(t * 1e6)}," + ",".join(cells) + "\r\n")


def wave(frequency, rms, degrees, order=1):
    return lambda t: rms * math.sqrt(2) * math.cos(2 * math.pi * frequency * order * t + math.radians(degrees))


def plus(*waves):
    return lambda t: sum(w(t) for w in waves)


def then(at, before, after):
    return lambda t: before(t) if t < at else after(t)


def feeder(f, at):
    """Three voltages; currents of which the first grows at an instant; harmonics; a dc part; a voltage that is only dc; nothing."""
    return [
        ("UA", "A", "Line", "kV", "0.002", "0", "0", wave(f, 100, 0)),
        ("UB", "B", "Line", "kV", "0.002", "0", "0", wave(f, 100, -120)),
        ("UC", "C", "Line", "kV", "0.002", "0", "0", wave(f, 100, 120)),
        ("IA", "L1", "Line", "A", "0.03", "0", "0", then(at, wave(f, 100, -30), wave(f, 1500, -60))),
        ("IB", "L2", "Line", "A", "0.002", "0", "0", wave(f, 100, -150)),
        ("IC", "L3", "Line", "A", "0.002", "0", "0", wave(f, 100, 90)),
        ("IH", "", "", "A", "0.002", "0", "0", plus(wave(f, 100, 45), wave(f, 10, 20, 5), wave(f, 5, 0, 7))),
        ("ID", "", "", "A", "0.004", "100", "0", plus(wave(f, 100, 10), lambda t: 100)),
        ("late", "", "", "A", "0.002", "0", "500", wave(f, 100, 10)),
        ("battery", "", "", "V", "0.02", "0", "0", lambda t: 1000),
        ("spare", "", "", "A", "0.02", "0", "0", lambda t: 0),
    ]


def noise(seed):
    """A channel of random harmonics, dc part and steps."""
    chance = random.Random(seed)
    parts = [(chance.uniform(0, 900 / (k + 1)), chance.uniform(-180, 180), k) for k in range(1, 31)]
    dc = chance.uniform(-300, 300)
    return lambda t, f: dc + sum(wave(f, rms, degrees, k)(t) for rms, degrees, k in parts) + chance.uniform(-20, 20)


def random_record(folder, n, rate, f, cycles):
    channels = [
        (f"X{j}", "ABC"[j % 3], f"Line {j // 3}", "A", "0.05", "0.5", str(37 * j), (lambda w: lambda t: w(t, float(f)))(noise(100 * n + j)))
        for j in range(20)
    ]
    write(f"{folder}/random{n}", rate, f, channels, int(float(rate) / float(f) * cycles) + 3)


def main(folder):
    write(f"{folder}/whole", "1200", "50", feeder(50, 0.1), 360, trigger=120)
    write(f"{folder}/between", "1000", "60", feeder(60, 0.1), 300, trigger=100)
    write(f"{folder}/gap", "1200", "50", feeder(50, 0.1), 360, trigger=120, missing={(200, 4)})
    write(f"{folder}/rates", "1200", "50", feeder(50, 0.1), 360, trigger=120, rates=[("1200", 100), ("2400", 360)])
    write(f"{folder}/stamps", "0", "50", feeder(50, 0.1), 60, nrates=0)
    write(f"{folder}/short", "1200", "50", feeder(50, 0.1), 23)
    write(f"{folder}/direct", "1200", "0", feeder(50, 0.1), 60)
    write(f"{folder}/slow", "120", "50", feeder(50, 0.1), 60)
    write(f"{folder}/coarse", "300", "50", feeder(50, 0.1), 60)
    records = [("1200", "50", 1), ("1000", "60", 1), ("4000", "50", 2), ("5000", "60", 1), ("833.3", "50", 3), ("3600", "49.97", 2),
               ("960", "60", 5), ("1234.5", "50.01", 1), ("7200", "60", 4), ("2777", "16.7", 2)]
    for n, (rate, f, cycles) in enumerate(records):
        random_record(folder, n, rate, f, cycles)


if __name__ == "__main__":
    main(sys.argv[1])
