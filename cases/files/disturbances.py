"""Disturbances of a line of 110 kV, as records; and detectors by their definitions over whole lists of scans.

    disturbances.py make FOLDER [SECONDS]   records FOLDER/NAME.cfg and .dat, and FOLDER/lines; the last, quiet, has so many seconds of noise
    disturbances.py judge FOLDER            compares FOLDER/NAME.told, what `comtrade detect` printed of each, with the definitions; and what
                                            fires with what should, within a period of the disturbance (a frequency: within its cycles and one more)

It knows nothing of the programs. Levels are fractions of the channels' units, so that each decision is exact. The values of sine and
cosine, which are part of the definition of waves, come from bench/detectors.py.
"""
import math
import os
import random
import sys
from fractions import Fraction as F
from functools import cache

sys.path.insert(0, os.path.join(os.path.dirname(os.path.abspath(__file__)), "../../bench"))
import detectors  # noqa: E402

turned = cache(detectors.turned)
RATE, LINE, PERIOD = 1200, 50, 24
ONE = [F(1, 100)] * 3 + [F(1, 2)] * 3  # kV, A
IDS = ["UA", "UB", "UC", "IA", "IB", "IC"]
LINES = """# detectors of a line of 110 kV; the other lines of a set-up are skipped
station S
detect SAG rms under 0.85 of 64 kV of UA,UB,UC for 6 reset 0.9 of 64 kV
detect SWELL rms over 76 of UA,UB,UC reset 73
detect OVER rms over 900 of IA,IB,IC reset 840
detect EARTH rms over 60 of IA+IB+IC for 6
detect WAVE rms over 6 of UA+UB+UC for 6
detect JUMP jump 150 of IA,IB,IC
detect LOAD change 1500 of IA window 12
detect LOW frequency under 0.98 of 50 Hz of UA cycles 5 least 0.1 of 63.5 kV
detect HIGH frequency over 51 of UA for 3 reset 50.9 cycles 5 least 6.35
detect DRIFT frequency change 1 of UB window 800 cycles 8 least 6.35
detect INRUSH harmonic 2 over 15 of IA,IB,IC for 24 reset 12 least 0.2 of 600 A
detect NEG negative over 60 of IA+IB+IC for 6
detect ZERO zero over 0.1 of 63.5 kV of UA+UB+UC for 6
detect LESS positive under 0.85 of 63.5 kV of UA+UB+UC for 6 reset 0.9 of 63.5 kV
detect OPEN unbalance over 20 of IA+IB+IC for 24 reset 15 least 60
"""
# name, kind, channels, level, reset, for, window, cycles
DETECTORS = (
    [(f"SAG-U{p}", "under", [i], F("54.4"), F("57.6"), 6, PERIOD) for i, p in enumerate("ABC")]
    + [(f"SWELL-U{p}", "over", [i], F(76), F(73), 1, PERIOD) for i, p in enumerate("ABC")]
    + [(f"OVER-I{p}", "over", [3 + i], F(900), F(840), 1, PERIOD) for i, p in enumerate("ABC")]
    + [("EARTH", "over", [3, 4, 5], F(60), F(60), 6, PERIOD), ("WAVE", "over", [0, 1, 2], F(6), F(6), 6, PERIOD)]
    + [(f"JUMP-I{p}", "jump", [3 + i], F(150), F(150), 1, PERIOD) for i, p in enumerate("ABC")]
    + [("LOAD", "change", [3], F(1500), F(1500), 1, 12)]
    + [("LOW", "slower", [0], F(49), F(49), 1, 2 * 5 * PERIOD, 5), ("HIGH", "faster", [0], F(51), F("50.9"), 3, 2 * 5 * PERIOD, 5)]
    + [("DRIFT", "drifts", [1], F(1), F(1), 1, 800, 8)]
    + [(f"INRUSH-I{p}", "harmonic", [3 + i], F(15), F(12), PERIOD, PERIOD) for i, p in enumerate("ABC")]
    + [("NEG", "negative", [3, 4, 5], F(60), F(60), 6, PERIOD), ("ZERO", "zero", [0, 1, 2], F("6.35"), F("6.35"), 6, PERIOD)]
    + [("LESS", "positive", [0, 1, 2], F("53.975"), F("57.15"), 6, PERIOD), ("OPEN", "unbalance", [3, 4, 5], F(20), F(15), 24, PERIOD)]
)
LEAST = F("6.35")
# of a harmonic and of unbalance the least rms value; of each wave its order, and how many thirds of a turn each phase is behind the one before
SMALLEST = {"harmonic": 120, "unbalance": 60}
WAVES = {"harmonic": [(1, 0), (2, 0)], "unbalance": [(1, 1), (1, 2)], "positive": [(1, 1)], "negative": [(1, 2)], "zero": [(1, 0)]}


class Case:
    """A record: how long it is, and at each second the volts and amperes (rms and angle in turns, per phase) and the frequency."""

    def __init__(self, seconds, since, fires, state, frequency=lambda t: 50, missing=()):
        self.seconds, self.since, self.fires, self.state, self.frequency, self.missing = seconds, since, fires, state, frequency, missing


def phases(volts, amperes):
    return [(v, -i / 3) for i, v in enumerate(volts)] + [(a, -i / 3 - 0.08) for i, a in enumerate(amperes)]


QUIET = phases([63.5] * 3, [300] * 3)


def after(t, since, later, before=QUIET):
    return later if t >= since else before


def inrush(t):
    """A transformer at 0.5 s: half waves of A, with a residual current, that die away."""
    return after(t, 0.5, phases([63.5] * 3, [1500 * math.exp(-(t - 0.5) / 0.8), 300, 300]))


CASES = {
    "sag": Case(2, 0.5, "SAG-UA SAG-UB SAG-UC LESS", lambda t: after(t, 0.5, phases([40] * 3, [300] * 3)) if t < 1 else QUIET),
    "swell": Case(2, 0.5, "SWELL-UB WAVE", lambda t: after(t, 0.5, phases([63.5, 80, 63.5], [300] * 3))),
    # an earth fault of A becomes one of A and B
    "evolving": Case(2, 0.5, "SAG-UA OVER-IA EARTH WAVE JUMP-IA LOAD NEG ZERO LESS OPEN SAG-UB@0.8 OVER-IB@0.8 JUMP-IB@0.8",
                     lambda t: after(t, 0.5, after(t, 0.8, phases([25, 30, 63.5], [2500, 2400, 300]), phases([30, 63.5, 63.5], [2500, 300, 300])))),
    # 40 kilohms on an isolated network: the currents change by a few amperes
    "resistance": Case(2, 0.5, "WAVE", lambda t: after(t, 0.5, phases([57, 66, 67], [304, 300, 300]))),
    "inrush": Case(2, 0.5, "OVER-IA EARTH JUMP-IA LOAD INRUSH-IA NEG OPEN", inrush),
    "load": Case(2, 0.5, "JUMP-IA JUMP-IB JUMP-IC", lambda t: after(t, 0.5, phases([63.5] * 3, [500] * 3))),
    "slow": Case(2, 0, "LOW@0.06", lambda t: QUIET, lambda t: 47.5),
    "fast": Case(2, 0, "HIGH", lambda t: QUIET, lambda t: 51.2),
    "ramp": Case(3, 1, "DRIFT", lambda t: QUIET, lambda t: 50 if t < 1 else max(49.2, 50 - 2 * (t - 1))),
    # UA and UB are missing in one row within the sag, and IA from a third of the fault on
    "missing": Case(2, 0.5, "SAG-UA SAG-UB SAG-UC LESS", lambda t: after(t, 0.5, phases([40] * 3, [300] * 3)), missing=((700, 0), (702, 1))),
    "quiet": Case(20, 0, "", lambda t: QUIET, lambda t: 50 + 0.05 * math.sin(t / 3)),
}


def record(name, seconds=None):
    """The samples of a record: for each scan a list, None where one is missing."""
    case, rng = CASES[name], random.Random(name)
    turns, scans = 0.0, []
    for k in range(int((seconds or case.seconds) * RATE)):
        t = k / RATE
        row = []
        for i, (size, angle) in enumerate(case.state(t)):
            x = size * math.sqrt(2) * math.sin(2 * math.pi * (turns + angle + 0.03))
            if name == "inrush" and i == 3 and t >= 0.5:
                x = max(x, 0)
            row.append(round(x / float(ONE[i]) + rng.gauss(0, 12)))
        for at, channel in case.missing:
            if at == k:
                row[channel] = None
        turns += case.frequency(t) / RATE
        scans.append(row)
    return scans


def write(folder, name, scans):
    cfg = [f"{name},lines,1999", "6,6A,0D"]
    for i, ident in enumerate(IDS):
        unit, one = ("kV", "0.01") if i < 3 else ("A", "0.5")
        cfg.append(f"{i + 1},{ident},{ident[1]},,{unit},{one},0,0,-32767,32767,1,1,P")
    cfg += [str(LINE), "1", f"{RATE},{len(scans)}", "01/07/2024,10:30:00.000000", "01/07/2024,10:30:00.000000", "ASCII", "1"]
    with open(f"{folder}/{name}.cfg", "w", newline="") as file:
        file.write("".join(line + "\r\n" for line in cfg))
    with open(f"{folder}/{name}.dat", "w", newline="") as file:
        for k, row in enumerate(scans):
            file.write(",".join([str(k + 1), str(k * 1000000 // RATE), *("99999" if x is None else str(x) for x in row)]) + "\r\n")
        file.write("\x1a")


# ---- the definitions


def crossings(past):
    """When the crossing at the newest of these samples since the last gap was, in 65536ths of a scan, if it counts. Samples are (scan, sample)."""
    (_, y), (k, x) = past[-2:]
    first = len(past) - 1
    while first > 0 and past[first - 1][1] < 0:
        first -= 1
    if x < 0 or first == len(past) - 1 or min(z for _, z in past[first:-1]) * ONE[0] > -LEAST:
        return []
    return [k * 65536 - 65536 * x // (x - y)]


def frequency_met(kind, level, k, window, cycles, when):
    """Whether the crossings up to scan k meet a level in Hz, as quotients."""
    needed = 2 * cycles if kind == "drifts" else cycles
    if len(when) <= needed or k * 65536 - when[-1 - needed] > window * 65536:
        return False
    newer = F(cycles * RATE * 65536, when[-1] - when[-1 - cycles])
    if kind != "drifts":
        return newer >= level if kind == "faster" else newer <= level
    older = F(cycles * RATE * 65536, when[-1 - cycles] - when[-1 - needed])
    return abs(newer - older) / F(when[-1] - when[-1 - needed], 2 * 65536 * RATE) >= level


def window_met(kind, one, level, window, last):
    """Whether the newest of these samples since the last gap meet a level."""
    if len(last) < {"over": window, "under": window, "change": window + 1, "jump": 2 * window + 1}[kind]:
        return False
    if kind == "change":
        return abs(last[-1] - last[-1 - window]) * one >= level
    if kind == "jump":
        return abs(last[-1] - 2 * last[-1 - window] + last[-1 - 2 * window]) * one >= level
    size = sum(x * x for x in last[-window:]) * one**2
    return size >= window * level**2 if kind == "over" else size <= window * level**2


def shares_met(kind, one, square, other, levels):
    """Whether the squares of a wave and of another, over a window, meet the levels: A or kV, or percent of the first one."""
    if kind in SMALLEST:
        least = (1 if kind == "harmonic" else 3) * PERIOD * math.ceil(SMALLEST[kind] / one)
        return tuple(2 * square >= least**2 and 10000 * other >= level**2 * square for level in levels)
    sizes = [(math.floor if kind == "positive" else math.ceil)(level / one) for level in levels]
    return tuple((2 * square <= (3 * PERIOD * x) ** 2) if kind == "positive" else (2 * square >= (3 * PERIOD * x) ** 2) for x in sizes)


def waves_met(detector, scans):
    """The same of waves: the sums of the samples times a cosine and a sine that begin anew at each gap, over a window."""
    _, kind, channels, *levels, _, window = detector
    one, found, totals = ONE[channels[0]], [], []
    for row in scans:
        samples = [row[c] for c in channels]
        if None in samples:
            totals = []
            found.append((False, False))
            continue
        k, parts = len(totals), []
        for order, thirds in WAVES[kind]:
            turns = [turned(3 * window, (3 * order * (k % window) - i * thirds * window) % (3 * window)) for i in range(len(samples))]
            parts += [sum(x * turn[half] for x, turn in zip(samples, turns)) for half in (0, 1)]
        totals.append([a + b for a, b in zip(totals[-1] if totals else [0] * 4, parts)])
        if k + 1 < window:
            found.append((False, False))
            continue
        before = totals[-1 - window] if k + 1 > window else [0] * len(parts)
        sums = [(abs(a - b) // 16384) ** 2 for a, b in zip(totals[-1], before)]
        found.append(shares_met(kind, one, sum(sums[:2]), sum(sums[2:]), levels))
    return found


def levels_met(detector, scans):
    """For each scan, whether the level and the reset level are met, over the samples since the last gap."""
    if detector[1] in WAVES:
        return waves_met(detector, scans)
    _, kind, channels, level, reset, _, window, *cycles = detector
    one, past, when, found = ONE[channels[0]], [], [], []
    for k, row in enumerate(scans):
        if any(row[c] is None for c in channels):
            past, when = [], []
            found.append((False, False))
            continue
        past.append((k, sum(row[c] for c in channels)))
        if cycles and len(past) > 1:  # a crossing at this scan depends on the samples up to it alone
            when += crossings(past)
        last = [x for _, x in past[-2 * window - 1:]]
        found.append(tuple(frequency_met(kind, v, k, window, *cycles, when) if cycles else window_met(kind, one, v, window, last) for v in (level, reset)))
    return found


def firings(detector, scans):
    """The first and the last scan of each time that the bit is 1."""
    row, count, on, found = detector[5], 0, False, []
    for k, (met, stays) in enumerate(levels_met(detector, scans)):
        count = count + 1 if met else 0
        now = count >= row or (on and stays)
        if now and not on:
            found.append([k, k])
        elif now:
            found[-1][1] = k
        on = now
    return found


def told_of(scans):
    """What is to be printed."""
    lines = []
    for detector in DETECTORS:
        found = firings(detector, scans)
        for first, last in found:
            micros = first * 1000000 // RATE
            at = f"2024-07-01 10:30:{micros // 1000000:02}.{micros % 1000000:06}"
            lines.append(f"{detector[0]} {at} row {first + 1} scan {first} for {last - first + 1}")
        if not found:
            lines.append(f"{detector[0]} never")
    return lines


def judge(folder):
    for name, case in CASES.items():
        told = open(f"{folder}/{name}.told").read().splitlines()
        scans = [[None if int(f) == 99999 else int(f) for f in line.split(",")[2:]] for line in open(f"{folder}/{name}.dat").read().rstrip("\x1a").splitlines()]
        wanted = told_of(scans)
        differ = sum(a != b for a, b in zip(told, wanted)) + abs(len(told) - len(wanted))
        first = {}
        for line in wanted:
            if " scan " in line:
                first.setdefault(line.split()[0], int(line.split(" scan ")[1].split()[0]))
        due = {w.split("@")[0]: float((w.split("@") + [case.since])[1]) for w in case.fires.split()}
        slack = {d[0]: (d[7] * (2 if d[1] == "drifts" else 1) + 1 if len(d) > 7 else 1) * PERIOD + d[5] for d in DETECTORS}
        late = [i for i in due if i in first and first[i] > due[i] * RATE + slack[i]]
        early = [i for i in first if first[i] < due.get(i, 0) * RATE]
        others, missed = [i for i in first if i not in due], [i for i in due if i not in first]
        print(f"{name}: {len(wanted)} lines, {differ} differ; fires {' '.join(first) or 'nothing'}; late {late} early {early} missed {missed} others {others}")
        if differ:
            print("\n".join(f"  {a} | {b}" for a, b in zip(told, wanted) if a != b))


def main():
    folder = sys.argv[2]
    if sys.argv[1] == "make":
        os.makedirs(folder, exist_ok=True)
        open(f"{folder}/lines", "w").write(LINES)
        for name in CASES:
            write(folder, name, record(name, float(sys.argv[3]) if name == "quiet" and len(sys.argv) > 3 else None))
        print(*CASES)
    else:
        judge(folder)


if __name__ == "__main__":
    main()
