#!/usr/bin/env python3
"""Makes data/ and stdout by the layout of C37.111-1999, without the program: ./expected.py in this folder."""
import math
import struct

CHANNELS = [("UA", "A", "Line 3", "kV", "0.01", "0.5"), ("IA", "A", "Line 3", "A", "-0.25", "0"), ("IB", "B", "Line 3", "A", "1e-1", "0")]
ROWS = 50
lines = ["Northfield 110 kV,Example,1999", "4,3A,1D"]
for n, (name, phase, part, unit, a, b) in enumerate(CHANNELS, 1):
    lines.append(f"{n},{name},{phase},{part},{unit},{a},{b},0,-32767,32767,1,1,P")
lines += ["1,Breaker open,,Q0,0", "50", "1", f"1000,{ROWS}", "29/02/2024,23:59:59.990000", "01/03/2024,00:00:00.010000", "BINARY", "1"]
rows = []
for k in range(ROWS):
    wave = math.sin(2 * math.pi * k / 20)
    missing = 10 <= k < 20
    rows.append((k + 1, k * 1000, round(9000 * wave) + k, None if missing else round((1000 + 100 * k) * wave), None, int(30 <= k)))
with open("data/record.cfg", "w", newline="") as cfg:
    cfg.write("".join(line + "\r\n" for line in lines))
with open("data/record.dat", "wb") as dat:
    for number, stamp, *samples, bit in rows:
        dat.write(struct.pack("<II3hH", number, stamp, *[-32768 if x is None else x for x in samples], bit))
with open("stdout", "w") as out:
    print("first row 2024-02-29 23:59:59.990000", file=out)
    for n, (name, _, _, unit, a, b) in enumerate(CHANNELS):
        values = [float(a) * row[2 + n] + float(b) for row in rows if row[2 + n] is not None]
        print(f'"{name}": {min(values):.3f} to {max(values):.3f} "{unit}"' if values else f'"{name}": no sample', file=out)
