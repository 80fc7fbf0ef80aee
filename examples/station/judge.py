#!/usr/bin/env python3
"""Judges what `dfrd` recorded of `converter`: each fault has its record, and each row is the scan that the converter made.

    ./judge.py RECORDS TOLD SECONDS FAULT

It knows the converter and the rules of a record alone: it reads the files by itself.
"""
import importlib.machinery
import importlib.util
import os
import re
import sys

here = os.path.dirname(os.path.abspath(__file__))
loader = importlib.machinery.SourceFileLoader("converter", os.path.join(here, "converter"))
converter = importlib.util.module_from_spec(importlib.util.spec_from_loader("converter", loader))
loader.exec_module(converter)

PRE, POST, LONGEST, LEVEL = 480, 720, 4800, 3000


def extents(count, fault):
    """The first, the triggering and the last scan of each record that closes."""
    found, opened = [], None
    for k in range(count):
        fires = abs(converter.scan(k, fault)[0][0]) >= LEVEL
        if opened is None and fires:
            opened = [max(0, k - PRE), k, k + POST]
        elif fires:
            opened[2] = min(k + POST, opened[0] + LONGEST - 1)
        if opened is not None and opened[2] == k:
            found.append(tuple(opened))
            opened = None
    return found


def main(folder, told, seconds, fault):
    count, wrong = seconds * converter.RATE, []
    lines = open(told).read().splitlines()
    wanted = extents(count, fault)
    records = [re.search(r" record \d+ first (\d+) trigger (\d+) last (\d+) rule \d (\S+) (\S+)", line) for line in lines]
    records = [m.groups() for m in records if m]
    if [tuple(map(int, r[:3])) for r in records] != wanted:
        wrong.append(f"records {records}, wanted {wanted}")
    for first, _, last, cfg, dat in records:
        text = open(os.path.join(folder, dat)).read()
        rows = [line.split(",") for line in text.removesuffix("\x1a").splitlines()]
        if not text.endswith("\n\x1a"): # C37.111-1999, clause 6: the end of ASCII data
            wrong.append(f"{dat} has no end")
        if len(rows) != int(last) - int(first) + 1:
            wrong.append(f"{dat} has {len(rows)} rows")
        for k, row in enumerate(rows, int(first)):
            values, is_open = converter.scan(k, fault)
            if [int(n) for n in row[2:]] != values + [int(is_open)]:
                wrong.append(f"{dat}: scan {k} is {row}")
    files = sorted(os.listdir(folder))
    if files != sorted(name for r in records for name in r[3:]):
        wrong.append(f"files {files}")
    if not re.search(f" end scans {count} lost 0 records {len(wanted)} left 0", lines[-1]):
        wrong.append(f"the end is {lines[-1]}")
    print("\n".join(wrong[:10]))
    print(f"{count} scans, {len(records)} records, {len(wrong)} differences")
    return bool(wrong)


if __name__ == "__main__":
    sys.exit(main(sys.argv[1], sys.argv[2], int(sys.argv[3]), int(sys.argv[4])))
