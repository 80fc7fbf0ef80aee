#!/usr/bin/env python3
"""Makes out by the layout of C37.111-1999, without the program: ./expected.py in this folder."""
import datetime
import math

ROWS = 40
FIRST = datetime.datetime(2024, 7, 1, 10, 30)


def instant(at):
    return at.strftime("%d/%m/%Y,%H:%M:%S.%f")


lines = ["Northfield 110 kV,Example,1999", "2,1A,1D", "1,IA,A,Line 3,A,0.5,0,0,-32767,32767,600,1,P", "1,Breaker open,,Q0,0", "50", "1"]
lines += [f"1000,{ROWS}", instant(FIRST), instant(FIRST + datetime.timedelta(milliseconds=20)), "ASCII", "1"]
for k in range(ROWS):
    lines.append(f"{k + 1},{k * 1000},{round(1000 * math.sin(2 * math.pi * k / 20))},{int(30 <= k)}")
with open("out", "w", newline="") as out:
    out.write("".join(line + "\r\n" for line in lines) + "\x1a")
