#!/usr/bin/env python3
"""Makes out by the layout of C37.111-1999, without the program: ./expected.py in this folder."""
import datetime

START = datetime.datetime(2024, 7, 1, 10, 30)


def sample(k):
    return 99999 if k == 35 else 1000 if 30 <= k <= 39 else 100  # 99999: a missing value


def instant(k):
    return (START + datetime.timedelta(milliseconds=k)).strftime("%d/%m/%Y,%H:%M:%S.%f")


def files(first, trigger, last):
    lines = ["Northfield 110 kV,My recorder,1999", "1,1A,0D", "1,IA,A,Line 3,A,0.5,0,0,-32767,32767,600,1,P", "50", "1"]
    lines += [f"1000,{last - first + 1}", instant(first), instant(trigger), "ASCII", "1"]
    lines += [f"{k - first + 1},{(k - first) * 1000},{sample(k)}" for k in range(first, last + 1)]
    return "".join(line + "\r\n" for line in lines) + "\x1a"


# 5 scans before the trigger; 10 after the last scan at which the rule holds; an order after 80 scans triggers at scan 79
with open("out", "w", newline="") as out:
    out.write(files(30 - 5, 30, 39 + 10) + files(79 - 5, 79, 79 + 10))
