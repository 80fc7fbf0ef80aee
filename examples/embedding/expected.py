#!/usr/bin/env python3
"""Makes the pairs in `pairs/` and what each caller and sample must print of them: run ./expected.py in this folder. It uses a plain reader
of the layout of C37.111-1999 that shares nothing with the library. The pairs are spelled as the writers spell them, so a caller must write
the same bytes."""
import math
import struct
from datetime import datetime
from fractions import Fraction
from pathlib import Path


def wave(k, c):
    return round(9000 * math.sin(2 * math.pi * (k + c) / 20)) + k


def many():
    """64 analogue and 64 status channels in ASCII, with missing samples and time stamps."""
    head = ["Northfield 110 kV,Many,1999", "128,64A,64D"]
    head += [f"{c + 1},I{c},{'ABCN'[c % 4]},Line {c // 4},A,0.{c + 1}1,-{c}.5,{c}.25,-99999,99998,{100 + c},1,{'PS'[c % 2]}" for c in range(64)]
    head += [f"{c + 1},Contact {c},,Q{c},{c % 2}" for c in range(64)]
    head += ["60", "1", "1000,40", "29/02/2024,23:59:59.990000", "01/03/2024,00:00:00.010000", "ASCII", "1"]
    rows = []
    for k in range(40):
        xs = [99999 if (k + c) % 7 == 0 else wave(k, c) for c in range(64)]
        rows.append(",".join([str(k + 1), "" if k % 5 == 4 else str(1000 * k)] + [str(x) for x in xs] + [str((k >> (c % 6)) & 1) for c in range(64)]))
    return "\r\n".join(head) + "\r\n", ("\r\n".join(rows) + "\r\n\x1a").encode()


def rates():
    """Three rates in BINARY. The time stamps differ from the rates, which take precedence."""
    head = ["Southfield,Rates,1999", "3,2A,1D", "1,UA,A,Bus,kV,0.5,-0.125,0,-32767,32767,110,0.1,P", "2,UB,B,Bus,kV,0.5,0,2,-32767,32767,110,0.1,S",
            "1,Trip,,Q0,1", "50", "3", "1200,10", "4800,30", "600,45", "31/12/1999,23:59:59.999999", "01/01/2000,00:00:00.000001", "BINARY", "2"]
    rows = b"".join(struct.pack("<IIhhH", k + 1, 7 * k, wave(k, 0), -32768 if k == 3 else wave(k, 5), k % 2) for k in range(45))
    return "\r\n".join(head) + "\r\n", rows


def plain():
    """3 analogue and 1 status channel in BINARY: the pair of crates/examples/data."""
    head = ["Northfield 110 kV,Example,1999", "4,3A,1D"]
    for n, (name, phase, unit, a, b) in enumerate([("UA", "A", "kV", "0.01", "0.5"), ("IA", "A", "A", "-0.25", "0"), ("IB", "B", "A", "0.1", "0")], 1):
        head.append(f"{n},{name},{phase},Line 3,{unit},{a},{b},0,-32767,32767,1,1,P")
    head += ["1,Breaker open,,Q0,0", "50", "1", "1000,50", "29/02/2024,23:59:59.990000", "01/03/2024,00:00:00.010000", "BINARY", "1"]
    rows = b""
    for k in range(50):
        turn = math.sin(2 * math.pi * k / 20)
        rows += struct.pack("<II3hH", k + 1, k * 1000, round(9000 * turn) + k, -32768 if 10 <= k < 20 else round((1000 + 100 * k) * turn), -32768, int(30 <= k))
    return "\r\n".join(head) + "\r\n", rows


def micros(text):
    passed = datetime.strptime(text, "%d/%m/%Y,%H:%M:%S.%f") - datetime(1970, 1, 1)
    return (passed.days * 86400 + passed.seconds) * 10**6 + passed.microseconds


def rows_of(dat, kind, n, m):
    if kind == "ASCII":
        for line in dat.split(b"\x1a")[0].decode().splitlines():
            fields = line.split(",")
            xs = [None if int(x) == 99999 else int(x) for x in fields[2 : 2 + n]]
            yield int(fields[1]) if fields[1] else None, xs, [int(b) for b in fields[2 + n :]]
        return
    size = 8 + 2 * n + 2 * ((m + 15) // 16)
    for at in range(0, len(dat), size):
        _, stamp, *rest = struct.unpack(f"<II{n}h{(m + 15) // 16}H", dat[at : at + size])
        yield stamp if stamp != 0xFFFFFFFF else None, [None if x == -32768 else x for x in rest[:n]], [rest[n + c // 16] >> (c % 16) & 1 for c in range(m)]


def print_pair(cfg, dat, out):
    lines = iter(cfg.split("\r\n"))
    station, device, _ = next(lines).split(",")
    _, n, m = next(lines).split(",")
    n, m = int(n[:-1]), int(m[:-1])
    analog, status = [next(lines).split(",") for _ in range(n)], [next(lines).split(",") for _ in range(m)]
    frequency = next(lines)
    rates = [next(lines).split(",") for _ in range(int(next(lines)))]
    first, trigger, kind, timemult = micros(next(lines)), micros(next(lines)), next(lines), next(lines)
    rows = list(rows_of(dat, kind, n, m))
    print(f"{station}, {device}: {n} analogue, {m} status, {len(rows)} rows, {kind}", file=out)
    print(f"{float(frequency):.3f} Hz, times {float(timemult):.3f}, from {first}, trigger {trigger}", file=out)
    for samp, end in rates:
        print(f"rate {float(samp):.3f} to row {end}", file=out)
    values = [[None if x is None else float(ch[5]) * x + float(ch[6]) for x in (xs[c] for _, xs, _ in rows)] for c, ch in enumerate(analog)]
    for c, (_, name, phase, component, unit, a, b, skew, low, high, primary, secondary, side) in enumerate(analog):
        held = [xs[c] for _, xs, _ in rows if xs[c] is not None]
        most = max([0.0] + [v for v in values[c] if v is not None])
        print(f"{name}|{phase}|{component}|{unit}: {float(a):.6f} {float(b):.6f} {float(skew):.6f} {float(primary):.3f}:{float(secondary):.3f}{side} "
              f"{low} to {high}: {len(rows) - len(held)} missing, sum {sum(held)}, most {most:.6f}", file=out)
    for c, (_, name, phase, component, normal) in enumerate(status):
        print(f"{name}|{phase}|{component}: {normal}: {sum(bits[c] for *_, bits in rows)} of {len(rows)}", file=out)
    for row in (0, len(rows) // 2, len(rows) - 1):
        time, before = 0, 0
        for samp, end in rates:
            time += int(Fraction(min(row, int(end)) - before) * 10**9 / Fraction(samp)) # each rate rounded down by itself
            before = min(row, int(end))
        print(f"row {row}: {time} ns:" + "".join(" -" if v[row] is None else f" {v[row]:.6f}" for v in values) + " /" + "".join(f" {b}" for b in rows[row][2]), file=out)


def print_sample(cfg, dat, out):
    """What sample.c, sample.py and sample.rs print of a pair of one rate: the time and the value of its first analogue channel."""
    lines = cfg.split("\r\n")
    n, m = (int(count[:-1]) for count in lines[1].split(",")[1:])
    _, name, _, _, unit, a, b, *_ = lines[2].split(",")
    samp, _ = lines[n + m + 4].split(",")
    for row, (_, xs, _) in enumerate(rows_of(dat, lines[n + m + 7], n, m)):
        print(f"{row / float(samp):.6f} s: {name} {float(a) * xs[0] + float(b):.3f} {unit}", file=out)


if __name__ == "__main__":
    for name, (cfg, dat) in {"plain": plain(), "many": many(), "rates": rates()}.items():
        Path(f"pairs/{name}.cfg").write_bytes(cfg.encode())
        Path(f"pairs/{name}.dat").write_bytes(dat)
        with open(f"pairs/{name}.printed", "w") as out:
            print_pair(cfg, dat, out)
    with open("pairs/plain.sample", "w") as out:
        print_sample(*plain(), out)
