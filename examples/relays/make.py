#!/usr/bin/env python3
"""Writes the five sample records of this folder: python3 make.py [FOLDER]

All five hold one fault, phase A of a 110 kV line to earth, as five makers might write it: three voltages, three currents, two status
channels, 200 ms at 1,200 scans a second, the trigger 60 ms after the first row.
"""

import math
import os
import struct
import sys

RATE, ROWS, FREQUENCY = 1200, 240, 50
STRUCK, OPENED = 0.06, 0.135  # seconds after the first row: the fault, and when the breaker's contacts part
DECAY = 0.04  # time constant of the dc part


def cosine(rms, degrees, t):
    return rms * math.sqrt(2) * math.cos(2 * math.pi * FREQUENCY * t + math.radians(degrees))


def fault_current(t):
    """3,000 A with the dc part that keeps the current continuous when the fault begins."""
    offset = cosine(200, -20, STRUCK) - cosine(3000, -75, STRUCK)
    return cosine(3000, -75, t) + offset * math.exp((STRUCK - t) / DECAY)


def interrupted(values):
    """The values, 0 from the first zero after the breaker's contacts part."""
    out = []
    is_open = False
    for i, value in enumerate(values):
        is_open = is_open or (i / RATE >= OPENED and value * values[i - 1] <= 0)
        out.append(0.0 if is_open else value)
    return out


def fault():
    """The values of UA, UB, UC in kV and IA, IB, IC in A, and the bits of Pickup and Trip, each a list over the rows."""
    times = [i / RATE for i in range(ROWS)]
    currents = [
        interrupted([cosine(200, -20, t) if t < STRUCK else fault_current(t) for t in times]),
        interrupted([cosine(200, -140, t) for t in times]),
        interrupted([cosine(200, 100, t) for t in times]),
    ]
    last = max(i for i in range(ROWS) if currents[0][i] != 0)
    voltages = [
        [cosine(25, -5, t) if STRUCK <= t and i <= last else cosine(63.5, 0, t) for i, t in enumerate(times)],
        [cosine(63.5, -120, t) for t in times],
        [cosine(63.5, 120, t) for t in times],
    ]
    bits = [[int(0.066 <= t < 0.16) for t in times], [int(0.082 <= t < 0.18) for t in times]]
    return voltages + currents, bits


VALUES, BITS = fault()
ANALOG = [("UA", "A", "kV"), ("UB", "B", "kV"), ("UC", "C", "kV"), ("IA", "A", "A"), ("IB", "B", "A"), ("IC", "C", "A")]
STATUS = ["Pickup", "Trip"]
STEPS = {"kV": 0.01, "A": 0.5}


def samples():
    """The values as whole numbers of steps, row by row."""
    return [[round(VALUES[k][i] / STEPS[unit]) for k, (_, _, unit) in enumerate(ANALOG)] for i in range(ROWS)]


def rows_as_text(separator=","):
    lines = []
    for i, row in enumerate(samples()):
        cells = [i + 1, round(i * 1e6 / RATE), *row, *(bits[i] for bits in BITS)]
        lines.append(separator.join(map(str, cells)))
    return lines


def rows_as_float32():
    rows = b""
    for i in range(ROWS):
        values = [round(VALUES[k][i], 3) for k in range(len(ANALOG))]
        word = sum(bits[i] << n for n, bits in enumerate(BITS))
        rows += struct.pack("<II6fH", i + 1, round(i * 1e6 / RATE), *values, word)
    return rows


def configuration(station, year, data, begun, triggered, span="-32767,32767"):
    """The lines of a configuration file of 1999, or with its two lines more of 2013."""
    lines = [f"{station},{year}", "8,6A,2D"]
    for n, (name, phase, unit) in enumerate(ANALOG, 1):
        step, ratio = (1 if data == "FLOAT32" else STEPS[unit]), ("110000,100" if unit == "kV" else "600,1")
        lines.append(f"{n},{name},{phase},Line 3,{unit},{step},0,0,{span},{ratio},P")
    lines += [f"{n},{name},,F21,0" for n, name in enumerate(STATUS, 1)]
    lines += [str(FREQUENCY), "1", f"{RATE},{ROWS}", begun, triggered, data, "1"]
    return lines + ["0,0", "0,0"] if year == 2013 else lines


def ended(lines, end="\r\n"):
    return "".join(line + end for line in lines).encode("ascii")


def relay_of_1991():
    """Ten fields in the line of an analogue channel, three in that of a status channel; month first, two digits of the year."""
    lines = ["Alder 110 kV,Feeder 2", "8,6A,2D"]
    for n, (name, phase, unit) in enumerate(ANALOG, 1):
        lines.append(f"{n},{name},{phase},Line 3,{unit},{STEPS[unit]},0,0,-32767,32767")
    lines += [f"{n},{name},0" for n, name in enumerate(STATUS, 1)]
    lines += [str(FREQUENCY), "1", f"{RATE},{ROWS}", "05/23/96,14:07:31.120000", "05/23/96,14:07:31.180000", "ASCII"]
    return {"RELAY91.CFG": ended(lines), "RELAY91.DAT": ended(rows_as_text())}


def merging_unit_of_2013():
    """FLOAT32 data, values in kV and A, and the two lines on time that 2013 adds."""
    span = "-3.4028235E+38,3.4028235E+38"
    lines = configuration("Birch 110 kV,Merging unit 1", 2013, "FLOAT32", "17/06/2024,09:12:45.300000", "17/06/2024,09:12:45.360000", span)
    return {"merging.cfg": ended(lines), "merging.dat": rows_as_float32()}


def single_file_of_2013():
    """Configuration, information, header and data in one file."""
    lines = configuration("Cedar 110 kV,Bay controller", 2013, "ASCII", "17/06/2024,09:12:45.300000", "17/06/2024,09:12:45.360000")
    text = ["--- file type: CFG ---", *lines]
    text += ["--- file type: INF ---", "[Public Record_Information]", "Source=Bay controller"]
    text += ["--- file type: HDR ---", "Phase A to earth on Line 3"]
    text += ["--- file type: DAT ASCII ---", *rows_as_text()]
    return {"single.cff": ended(text)}


def with_semicolons():
    """Semicolons between fields, commas in decimals, as programs write with the settings of many countries."""
    lines = configuration("Elm 110 kV,Relay 4", 1999, "ASCII", "17/06/2024,09:12:45.300000", "17/06/2024,09:12:45.360000")
    lines = [line.replace(",", ";") for line in lines]
    lines = [line.replace(";0.01;", ";0,01;").replace(";0.5;", ";0,5;") for line in lines]
    return {"semicolon.cfg": ended(lines), "semicolon.dat": ended(rows_as_text(";"))}


def with_doubled_returns():
    """Each line ends in CR CR LF, as after a transfer in text mode."""
    lines = configuration("Fir 110 kV,Relay 5", 1999, "ASCII", "17/06/2024,09:12:45.300000", "17/06/2024,09:12:45.360000")
    return {"returns.cfg": ended(lines, "\r\r\n"), "returns.dat": ended(rows_as_text(), "\r\r\n")}


def main():
    folder = sys.argv[1] if len(sys.argv) > 1 else os.path.dirname(os.path.realpath(__file__))
    os.makedirs(folder, exist_ok=True)
    for make in (relay_of_1991, merging_unit_of_2013, single_file_of_2013, with_semicolons, with_doubled_returns):
        for name, content in make().items():
            with open(os.path.join(folder, name), "wb") as file:
                file.write(content)


if __name__ == "__main__":
    main()
