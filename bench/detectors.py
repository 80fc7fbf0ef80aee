#!/usr/bin/env python3
"""The definitions of the detectors, over whole lists of scans, apart from the code: bench/detectors.py COMMAND

  examples          worked examples of each condition, computed by numpy from floats, and by the definitions
  make N [SEED]     N lines, each with settings and a random history: missing, lost, saturated, noisy, off-nominal
  judge LINES BITS  compares bits, one line for each history, with the definitions; the status is 1 if one differs

A line: condition, scans, level, reset level, row, how many channels, their numbers; then each scan, its readings with commas
between them, `-` where one is missing, `L` for a lost scan. The condition of a frequency has three numbers more, with colons:
`faster:CYCLES:RATE:LEAST`, and so have `slower` and `drifts`. A harmonic is `harmonic:ORDER:LEAST`, unbalance `unbalance:LEAST`, a
sequence over or under a level `more:THIRDS` or `less:THIRDS`, where THIRDS is 1 for the positive one, 2 for the negative, 0 for zero:
how many thirds of a period each phase is behind the one before it.
"""
import cmath
import math
import random
import sys
from fractions import Fraction

SPAN = {"over": lambda n: n, "under": lambda n: n, "change": lambda n: n + 1, "jump": lambda n: 2 * n + 1}


def signal(scan, channels):
    """The sum of these channels in a scan; None if one of them has no sample."""
    samples = [scan[c] if c < len(scan) else None for c in channels]
    return None if None in samples else sum(samples)


def since_gap(history):
    """The samples since the last gap, the oldest first."""
    gaps = [k for k, x in enumerate(history) if x is None]
    return history[gaps[-1] + 1:] if gaps else history


UNIT = 65536  # parts of a scan


def crossings(samples, least):
    """When each counted crossing was, in parts of a scan since the first sample, the latest first."""
    found = []
    for k in range(1, len(samples)):
        half_wave = k
        while half_wave > 0 and samples[half_wave - 1] < 0:
            half_wave -= 1
        if samples[k] >= 0 and half_wave < k and min(samples[half_wave:k]) <= -least:
            found.insert(0, k * UNIT - UNIT * samples[k] // (samples[k] - samples[k - 1]))
    return found


def frequency_holds(condition, n, level, samples):
    """Frequencies as fractions of whole numbers, in mHz."""
    kind, cycles, rate, least = condition.split(":")[0], *map(int, condition.split(":")[1:])
    when = crossings(samples, least)
    needed = 2 * cycles if kind == "drifts" else cycles
    now = (len(samples) - 1) * UNIT
    if len(when) <= needed or now - when[needed] > n * UNIT:
        return False
    newer = Fraction(1000 * cycles * rate * UNIT, when[0] - when[cycles])
    if kind != "drifts":
        return newer >= level if kind == "faster" else newer <= level
    older = Fraction(1000 * cycles * rate * UNIT, when[cycles] - when[2 * cycles])
    middles = Fraction(when[0] + when[cycles], 2) - Fraction(when[cycles] + when[2 * cycles], 2)
    return abs(newer - older) / (middles / UNIT / rate) >= level


WAVES = ("harmonic", "unbalance", "more", "less")


def is_wave(condition):
    return condition.split(":")[0] in WAVES


def phases(condition, scan, channels):
    """The samples of a scan as three phases; None if one is missing. A harmonic is that of the sum of all channels."""
    if condition.startswith("harmonic"):
        total = signal(scan, channels)
        return None if total is None else (total, 0, 0)
    samples = [scan[c] if c < len(scan) else None for c in channels[:3]]
    return None if None in samples or len(samples) < 3 else tuple(samples)


def signal_of(condition, scan, channels):
    return phases(condition, scan, channels) if is_wave(condition) else signal(scan, channels)


def quarter_sine(z):
    """The sine of z 32768ths of a quarter turn, in 16384ths."""
    square = z * z // 32768
    factor = 2600 - square * 140 // 32768
    factor = 21162 - square * factor // 32768
    factor = 51470 - square * factor // 32768
    return min(16384, (z * factor + 32768) // 65536)


def turned(parts, i):
    """The cosine and the sine of i parts of a turn that has so many, in 16384ths."""
    quarter, rest = divmod(4 * i, parts)
    z = 32768 * rest // parts
    ahead = [quarter_sine(z), quarter_sine(32768 - z), -quarter_sine(z), -quarter_sine(32768 - z)]
    return ahead[(quarter + 1) % 4], ahead[quarter % 4]


def strength(samples, n, order, thirds):
    """The square of the magnitude of a phasor of the last n samples, each phase so many thirds of a turn behind the one before it."""
    parts = [0, 0]
    for k in range(len(samples) - n, len(samples)):
        for phase, x in enumerate(samples[k]):
            coefficients = turned(3 * n, (3 * order * (k % n) - phase * thirds * n) % (3 * n))
            parts = [p + c * x for p, c in zip(parts, coefficients)]
    return sum((abs(p) // 16384) ** 2 for p in parts)


def wave_holds(condition, n, level, samples):
    """Shares in thousandths. The phasor of a wave of rms value V over n samples is n V / sqrt 2, of a sequence three times as much."""
    if len(samples) < n:
        return False
    kind, *numbers = condition.split(":")
    numbers = [int(x) for x in numbers]
    if kind in ("more", "less"):
        twice = 2 * strength(samples, n, 1, numbers[0])
        return twice >= (3 * n * level) ** 2 if kind == "more" else twice <= (3 * n * level) ** 2
    if kind == "harmonic":
        first, other, least = strength(samples, n, 1, 0), strength(samples, n, numbers[0], 0), numbers[1]
    else:
        first, other, least = strength(samples, n, 1, 1), strength(samples, n, 1, 2), 3 * numbers[0]
    return 2 * first >= (n * least) ** 2 and 10**6 * other >= level**2 * first


def holds(condition, n, level, history):
    """Whether the level is met at the last sample of a history."""
    samples = since_gap(history)
    if is_wave(condition):
        return wave_holds(condition, n, level, samples)
    if ":" in condition:
        return frequency_holds(condition, n, level, samples)
    if len(samples) < SPAN[condition](n):
        return False
    last = samples[len(samples) - SPAN[condition](n):]
    if condition == "over":
        return n * level * level <= sum(x * x for x in last)
    if condition == "under":
        return sum(x * x for x in last) <= n * level * level
    if condition == "change":
        return abs(last[-1] - last[0]) >= level
    return abs(last[-1] - 2 * last[n] + last[0]) >= level


def bits(condition, n, level, reset, row, history):
    """The bit of each scan, over all scans up to it."""
    met = [holds(condition, n, level, history[:k + 1]) for k in range(len(history))]
    stays = [holds(condition, n, reset, history[:k + 1]) for k in range(len(history))]
    found = []
    for k in range(len(history)):
        fires = k + 1 >= row and all(met[k + 1 - row:k + 1])
        found.append(fires or (k > 0 and found[k - 1] and stays[k]))
    return found


def parsed(line):
    words = line.split()
    condition, (n, level, reset, row, count) = words[0], map(int, words[1:6])
    channels = [int(w) for w in words[6:6 + count]]
    scans = [[] if w == "L" else [None if p == "-" else int(p) for p in w.split(",")] for w in words[6 + count:]]
    return condition, n, level, reset, row, channels, scans


def wave(rng, length, kind):
    """The samples of one channel."""
    size = rng.choice([3, 40, 2000, 32767, 2**31 - 1])
    per_cycle = rng.uniform(2.5, 21)
    start = rng.uniform(0, 2 * math.pi)
    fault = rng.randrange(length + 1)
    found = []
    for k in range(length):
        if kind == "noise":
            x = rng.randint(-size, size)
        elif kind == "steps":
            x = size if k >= fault else rng.randint(-1, 1)
        else:
            x = round(size * (0.4 if k < fault else 1) * math.sin(start + 2 * math.pi * k / per_cycle))
        if kind == "saturated":
            x = max(-size // 2, min(size // 2, x))
        found.append(max(-2**31, min(2**31 - 1, x)))
    return found, size


def frequency(rng, size):
    """A test of the frequency, with a level near that of the waves."""
    kind, cycles, rate = rng.choice(["faster", "slower", "drifts"]), rng.choice([1, 1, 2, 3]), rng.choice([50, 1000, 4800, 1000000])
    least = rng.choice([1, 1, max(1, size // 10), max(1, size)])
    level = max(1, int(1000 * rate / rng.uniform(2.5, 21)))
    if kind == "drifts":
        level = min(2**31, max(1, int(level * rate * rng.choice([0.0001, 0.001, 0.01, 0.1]))))
    reset = level if rng.random() < 0.4 else max(1, int(level * (rng.uniform(1, 1.1) if kind == "slower" else rng.uniform(0.9, 1))))
    # the cycles at the lower level lie in the scans, just so or with room
    needed = 4 * cycles if kind == "drifts" else -(-1000 * rate * cycles // min(level, reset))
    return f"{kind}:{cycles}:{rate}:{least}", needed + rng.choice([0, 0, 1, 5, 30]), level, reset


def wave_history(rng):
    """Three phases with harmonics and unbalance, and a detector of them."""
    n, size = rng.choice([12, 13, 16, 20, 24]), rng.choice([3, 40, 2000, 32767, 2**31 - 1])
    length, per_cycle, start = rng.choice([rng.randint(1, n), rng.randint(2 * n, 4 * n)]), n * rng.choice([1, 1, rng.uniform(0.8, 1.25)]), rng.uniform(0, 2 * math.pi)
    sizes = [rng.uniform(0.5, 1) if rng.random() < 0.7 else 0 for _ in range(3)]
    order, share, way = rng.randint(2, 5), rng.choice([0, 0.1, 0.5, 1]), rng.choice([1, 1, -1, 0])
    fault, gaps = rng.randrange(length + 1), rng.choice([0, 0, 0, 0.02])
    words = []
    for k in range(length):
        turns = [start + 2 * math.pi * (k / per_cycle - way * phase / 3) for phase in range(3)]
        parts = [s * (math.sin(a) + (share * math.sin(order * a) if k >= fault else 0)) for s, a in zip(sizes, turns)]
        samples = [max(-2**31, min(2**31 - 1, round(size * p))) for p in parts]
        words.append("L" if rng.random() < gaps else ",".join("-" if rng.random() < gaps / 2 else str(x) for x in samples))
    least = max(1, int(size * rng.choice([0.01, 0.1, 0.4])))
    condition = rng.choice([f"harmonic:{order}:{least}", f"unbalance:{least}", f"more:{rng.randrange(3)}", f"less:{rng.randrange(3)}"])
    is_share = condition[0] in "hu"
    channels = [rng.randrange(3)] if condition[0] == "h" and rng.random() < 0.7 else rng.sample(range(3), 3)
    level = max(1, int(size * rng.uniform(0.01, 0.7)))
    if is_share:
        level = min(1000, max(1, int(1000 * (share if condition[0] == "h" else 0.3) * rng.uniform(0.5, 1.1))))
    reset = level if rng.random() < 0.4 else max(1, int(level * (rng.uniform(1, 1.5) if condition[0] == "l" else rng.uniform(0.5, 1))))
    return " ".join([condition, *map(str, [n, level, reset, rng.choice([1, 1, 2, 5]), len(channels), *channels]), *words])


def history(rng):
    if rng.random() < 0.3:
        return wave_history(rng)
    length, width = rng.randint(1, 70), rng.randint(1, 4)
    kind = rng.choice(["noise", "steps", "sine", "saturated"])
    waves = [wave(rng, length, kind) for _ in range(width)]
    gaps = rng.choice([0, 0, 0.01, 0.05, 0.3])
    words = []
    for k in range(length):
        if rng.random() < gaps:
            words.append("L")
        else:
            words.append(",".join("-" if rng.random() < gaps / 2 else str(w[k]) for w, _ in waves))
    channels = [rng.randrange(width + (rng.random() < 0.02)) for _ in range(rng.randint(1, 4))]
    condition = rng.choice(list(SPAN))
    n = rng.choice([1, 2, 3, 4, 5, 8, 10, 16, 20])
    level = max(1, int(rng.choice([0.1, 0.3, 0.5, 0.7, 1, 2]) * max(s for _, s in waves)))
    reset = level if rng.random() < 0.4 else max(1, int(level * (rng.uniform(1, 2) if condition == "under" else rng.uniform(0, 1))))
    row = rng.choice([1, 1, 2, 3, 7])
    if rng.random() < 0.4:
        condition, n, level, reset = frequency(rng, max(s for _, s in waves))
    return " ".join([condition, *map(str, [n, level, reset, row, len(channels), *channels]), *words])


def make(count, seed=1):
    rng = random.Random(seed)
    for _ in range(count):
        print(history(rng))


def judge(lines_name, bits_name):
    lines, answers = open(lines_name).read().splitlines(), open(bits_name).read().splitlines()
    differ, kinds = abs(len(lines) - len(answers)), {}
    for number, (line, answer) in enumerate(zip(lines, answers), 1):
        condition, n, level, reset, row, channels, scans = parsed(line)
        wanted = "".join("01"[b] for b in bits(condition, n, level, reset, row, [signal_of(condition, s, channels) for s in scans]))
        kind = kinds.setdefault(condition.split(":")[0], [0, 0, 0, 0])
        for place, more in enumerate((1, len(set(wanted)) == 2, wanted.count("1"), wanted != answer)):
            kind[place] += more
        if wanted != answer:
            differ += 1
            print(f"line {number}: {line[:60]}: {answer}, expected {wanted}")
    for name, (count, both, ones, wrong) in sorted(kinds.items()):
        print(f"{name}: {count} histories, {both} with both bits, {ones} bits are 1: {wrong} differ")
    print(f"{len(lines)} histories: {differ} differ")
    return differ > 0


def examples():
    import numpy as np
    t = np.arange(60)
    sag = np.round(np.where(t < 30, 1000, 600) * np.sqrt(2) * np.sin(2 * np.pi * t / 20)).astype(int)
    slow = np.round(1000 * np.sin(2 * np.pi * t / 21)).astype(int)
    rms = [float(np.sqrt(np.mean(sag[k - 19:k + 1].astype(float) ** 2))) if k >= 19 else math.nan for k in range(60)]
    first = int(np.argmax(np.array(rms) <= 850))
    ours = bits("under", 20, 850, 850, 1, sag.tolist())
    print(f"a sag to 600 at scan 30, 20 scans a cycle: rms at scans 19, 29, 39, 49: {[round(rms[k], 1) for k in (19, 29, 39, 49)]}")
    print(f"  rms under 850: numpy from scan {first}, the definition from scan {ours.index(True)}")
    change = np.abs(slow[20:] - slow[:-20])
    jump = np.abs(slow[40:] - 2 * slow[20:-20] + slow[:-40])
    print(f"a steady wave of 1000 whose cycle has 21 scans, over 20: greatest change {change.max()}, greatest jump {jump.max()}")
    for condition, level in (("change", int(change.max())), ("jump", int(jump.max()))):
        fires = [any(bits(condition, 20, at, at, 1, slow.tolist())) for at in (level, level + 1)]
        print(f"  {condition} of {level} and of {level + 1}: {fires}")
    differ = first != ours.index(True)
    for hertz in (47.3, 50.0, 50.02, 61.9):
        tone = np.round(10000 * np.sin(2 * np.pi * hertz * np.arange(1200) / 4000 + 1)).astype(int).tolist()
        when = crossings(tone, 1)
        ours = [1000 * cycles * 4000 * UNIT / (when[0] - when[cycles]) for cycles in (1, 5)]
        print(f"  a wave of {hertz} Hz at 4000 scans a second: {[round(f, 2) for f in ours]} mHz over 1 and 5 cycles")
        differ |= any(abs(f - 1000 * hertz) > 1 for f in ours)
    ramp = np.round(10000 * np.sin(2 * np.pi * (50 * np.arange(4000) / 4000 + 0.5 * (np.arange(4000) / 4000) ** 2))).astype(int).tolist()
    fires = [frequency_holds("drifts:5:4000:1", 1200, level, ramp[:3000]) for level in (950, 1050)]
    print(f"  50 Hz and 1 Hz a second more: a change of 950 and of 1050 mHz a second: {fires}")
    return wave_examples() or differ or fires != [True, False]


def wave_examples():
    """An inrush and an open phase, by a Fourier sum of floats and by the definitions."""
    differ = False
    for n in (20, 80, 81):
        line = lambda samples, order: sum(x * cmath.exp(-2j * math.pi * order * k / n) for k, x in enumerate(samples))
        inrush = [round(9000 * max(0, math.cos(2 * math.pi * k / n) - 0.3)) for k in range(n)]
        size = lambda order: math.sqrt(strength([(x, 0, 0) for x in inrush], n, order, 0))
        for order in (2, 3, 4, 5):
            wanted, found = abs(line(inrush, order) / line(inrush, 1)), size(order) / size(1)
            differ |= abs(wanted - found) > 0.001
            if n == 80:
                print(f"  an inrush: harmonic {order} is {100 * wanted:.2f} %, by the definition {100 * found:.2f} %")
        sizes, turn = (1, 0.1, 0.8), cmath.exp(2j * math.pi / 3)
        three = [[round(9000 * s * math.sin(2 * math.pi * (k / n - p / 3))) for k in range(n)] for p, s in enumerate(sizes)]
        a, b, c = (line(x, 1) for x in three)
        for name, thirds, of_three in (("positive", 1, a + turn * b + turn**2 * c), ("negative", 2, a + turn**2 * b + turn * c), ("zero", 0, a + b + c)):
            wanted, found = (abs(x) * 2 / n / 3 / 9000 for x in (of_three, math.sqrt(strength(list(zip(*three)), n, 1, thirds))))
            differ |= abs(wanted - found) > 0.001
            if n == 80:
                print(f"  phases of {sizes}: the {name} sequence is {wanted:.4f}, by the definition {found:.4f}")
    return differ


if __name__ == "__main__":
    if len(sys.argv) < 2 or sys.argv[1] not in ("examples", "make", "judge"):
        sys.exit(__doc__)
    if sys.argv[1] == "make":
        sys.exit(make(*map(int, sys.argv[2:])))
    sys.exit(examples() if sys.argv[1] == "examples" else judge(*sys.argv[2:]))
