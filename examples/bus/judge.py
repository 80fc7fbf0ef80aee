#!/usr/bin/env python3
"""Judges what `dfrd` recorded of `bay`: each fault has its record, and each row is the sample that the merging unit sent.

    ./judge.py RECORDS TOLD SECONDS FAULT

It knows the bay and the rules of a record alone: it reads the files by itself.
"""
import importlib.machinery
import importlib.util
import os
import re
import sys

here = os.path.dirname(os.path.abspath(__file__))
loader = importlib.machinery.SourceFileLoader("bay", os.path.join(here, "bay"))
bay = importlib.util.module_from_spec(importlib.util.spec_from_loader("bay", loader))
loader.exec_module(bay)

PRE, POST, LONGEST, LEVEL = 400, 600, 4000, 3000


def scan(k, fault):
    """The readings of scan k, in steps of 0.5 A: the nearest ones, halves away from zero."""
    values, is_open = bay.sample(k, fault)
    return [(abs(it) + 250) // 500 * (-1 if it < 0 else 1) for it in values] + [int(is_open)]


def extents(count, fault):
    """The first, the triggering and the last scan of each record; the end of the input closes the last one."""
    found, opened = [], None
    for k in range(count):
        fires = abs(scan(k, fault)[0]) >= LEVEL
        if opened is None and fires:
            opened = [max(0, k - PRE), k, k + POST]
        elif fires:
            opened[2] = min(k + POST, opened[0] + LONGEST - 1)
        if opened is not None and opened[2] == k:
            found.append(tuple(opened))
            opened = None
    return found


def main(folder, told, seconds, fault):
    # the last scan waits for a sample after it, which doesn't come
    count, wrong, rows = seconds * bay.RATE, [], 0
    lines = open(told).read().splitlines()
    records = [re.search(r" record \d+ first (\d+) trigger (\d+) last (\d+) rule \d (\S+) (\S+)", line) for line in lines]
    records = [m.groups() for m in records if m]
    wanted = extents(count, fault)
    if [tuple(map(int, r[:3])) for r in records] != wanted:
        wrong.append(f"records {records}, wanted {wanted}")
    for first, _, _, _, dat in records:
        text = open(os.path.join(folder, dat)).read()
        for k, row in enumerate(text.removesuffix("\x1a").splitlines(), int(first)):
            rows += 1
            if [int(n) for n in row.split(",")[2:]] != scan(k, fault):
                wrong.append(f"{dat}: scan {k} is {row}, wanted {scan(k, fault)}")
    print(f"{len(records)} records, {rows} rows: {len(wanted)} records wanted, {len(wrong)} differences")
    print(*wrong[:10], sep="\n", end="\n" if wrong else "")
    return 1 if wrong else 0


if __name__ == "__main__":
    sys.exit(main(sys.argv[1], sys.argv[2], int(sys.argv[3]), int(sys.argv[4])))
