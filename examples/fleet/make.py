#!/usr/bin/env python3
"""Makes records of many stations for examples/fleet, and what their analysis must find.

    make.py COUNT FOLDER

FOLDER gets COUNT records in subfolders of a hundred, one for each station, and the file truth.csv
with the current, its rms values, the inception and the duration of each fault, as made.
"""
import csv
import datetime
import functools
import math
import multiprocessing
import random
import sys
from pathlib import Path

import dfr_comtrade
import numpy

RATE, FREQ, ROWS, PRE = 4800, 50, 2880, 960
CYCLE = RATE // FREQ


def record_of(number):
    """The channels of a record: three voltages, three currents and 16 contacts. One current has a
    fault of two to ten cycles."""
    chance = random.Random(number)
    before, factor = chance.uniform(100, 600), chance.uniform(3, 12)
    phase, cycles = chance.randrange(3), chance.randrange(2, 11)
    first = PRE - chance.randrange(0, 24)
    angle = chance.uniform(0, 2 * math.pi)
    turns = 2 * math.pi * FREQ * numpy.arange(ROWS) / RATE + angle
    is_fault = numpy.zeros(ROWS, bool)
    is_fault[first : first + cycles * CYCLE] = True
    currents = [math.sqrt(2) * before * numpy.sin(turns - k * 2 * math.pi / 3) for k in range(3)]
    currents[phase] = numpy.where(is_fault, factor, 1) * currents[phase]
    voltages = [89.8 * numpy.sin(turns + 0.3 - k * 2 * math.pi / 3) for k in range(3)]
    analog = [channel(f"U{'ABC'[k]}", voltages[k], "kV", 0.01) for k in range(3)]
    analog += [channel(f"I{'ABC'[k]}", currents[k], "A", 0.5) for k in range(3)]
    trip = numpy.zeros(ROWS, "uint8")
    trip[first + 2 * CYCLE :] = 1
    status = [dfr_comtrade.Status("Trip", trip)]
    status += [dfr_comtrade.Status(f"Contact {k}", numpy.zeros(ROWS, "uint8")) for k in range(15)]
    truth = (f"I{'ABC'[phase]}", before, before * factor, 1e3 * (first - PRE) / RATE, 20.0 * cycles)
    return analog, status, truth


def channel(name, values, unit, a):
    return dfr_comtrade.Analog(name, numpy.rint(values / a).astype("int32"), unit=unit, a=a)


def write_record(folder, number):
    """Writes a record, and returns what the analysis must find in it."""
    place = Path(folder) / f"station{number // 100:04}"
    place.mkdir(parents=True, exist_ok=True)
    first = datetime.datetime(2026, 1, 1) + datetime.timedelta(minutes=7 * number)
    analog, status, truth = record_of(number)
    name = place / f"{first:%Y%m%dT%H%M%S}-{number}"
    dfr_comtrade.write(
        name, analog, status, station=f"Station {number // 100}", device="Bay 1", first=first,
        trigger=first + datetime.timedelta(microseconds=PRE * 1_000_000 // RATE),
        rates=[(float(RATE), ROWS)], overwrite=True,
    )
    return (f"{name.resolve()}.cfg", *truth)


def main(count, folder):
    Path(folder).mkdir(parents=True, exist_ok=True)
    with multiprocessing.Pool() as pool:
        lines = pool.map(functools.partial(write_record, folder), range(count), chunksize=25)
    with open(Path(folder) / "truth.csv", "w", newline="", encoding="utf-8") as file:
        csv.writer(file, lineterminator="\n").writerows(lines)


if __name__ == "__main__":
    main(int(sys.argv[1]), sys.argv[2])
