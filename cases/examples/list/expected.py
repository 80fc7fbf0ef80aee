#!/usr/bin/env python3
"""Makes out by the layout of C37.111-1999, without the program: ./expected.py in this folder."""
import datetime

START = datetime.datetime(2024, 7, 1, 10, 30)


def sample(k):
    return 99999 if k == 35 else 1000 if 30 <= k <= 39 else 100  # 99999: a missing value


def instant(k):
    return (START + datetime.timedelta(milliseconds=k)).strftime("%d/%m/%Y,%H:%M:%S.%f")


first, trigger, last = 30 - 5, 30, 39 + 10  # 5 scans before the trigger; 10 after the last scan at which the rule holds
lines = ["Northfield 110 kV,My recorder,1999", "1,1A,0D", "1,IA,A,Line 3,A,0.5,0,0,-32767,32767,600,1,P", "50", "1"]
lines += [f"1000,{last - first + 1}", instant(first), instant(trigger), "ASCII", "1"]
lines += [f"{k - first + 1},{(k - first) * 1000},{sample(k)}" for k in range(first, last + 1)]
with open("out", "w", newline="") as out:
    out.write("".join(line + "\r\n" for line in lines) + "\x1a")
