#!/usr/bin/env python3
"""Makes a folder of twenty COMTRADE pairs, as after a storm: python3 make.py FOLDER

Five stations recorded twenty events within twenty seconds. Each pair has three voltages, three currents and three status channels,
200 ms at 1,200 scans a second, with the trigger 50 ms after the first row. Only storm12 has a fault: phase B to earth for 80 ms.
The pairs of two neighbours, storm11 and storm13, show the voltage sag.
"""

import math
import os
import sys

STATIONS = ["Hill", "Mill", "Dale", "Ford", "Moor"]
FREQUENCY = 50
RATE = 1200
ROWS = 240
TRIGGER_ROWS = 60
FAULTED = 12
SAGGING = (11, 13)


def wave(rms, degrees):
    return lambda t: rms * math.sqrt(2) * math.cos(2 * math.pi * FREQUENCY * t + math.radians(degrees))


def then(at, before, after):
    """One signal until an instant, another one from it on."""
    return lambda t: before(t) if t < at else after(t)


def analog_channels(n):
    """Name, phase, unit, multiplier and signal of each analogue channel of pair n."""
    load = 100 + 10 * n
    voltages = [wave(64, turn) for turn in (0, -120, 120)]
    currents = [wave(load, turn) for turn in (-20, -140, 100)]
    if n == FAULTED or n in SAGGING:
        voltages[1] = then(0.05, voltages[1], wave(20 if n == FAULTED else 50, -125))
    if n == FAULTED:
        currents[1] = then(0.05, currents[1], then(0.13, wave(4000, 160), lambda t: 0))
    kilovolts = [(name, phase, "kV", 0.002, u) for name, phase, u in zip(("UA", "UB", "UC"), "ABC", voltages)]
    amperes = [(name, phase, "A", 0.1, i) for name, phase, i in zip(("IA", "IB", "IC"), "ABC", currents)]
    return kilovolts + amperes


def status_channels(n):
    """Name of each status channel of pair n, and whether it is 1 at a time."""
    is_fault = n == FAULTED
    picked_up = 0.052 if n % 2 == 0 else 0.055
    return [
        ("Pickup", lambda t: t >= picked_up),
        ("Trip", lambda t: is_fault and t >= 0.07),
        ("Breaker open", lambda t: is_fault and t >= 0.125),
    ]


def save(path, lines):
    with open(path, "w", newline="", encoding="ascii") as file:
        file.write("".join(line + "\r\n" for line in lines))


def make_pair(folder, n):
    analog, status = analog_channels(n), status_channels(n)
    head = [
        f"{STATIONS[n % 5]},Bay {n // 5 + 1},1999",
        f"{len(analog) + len(status)},{len(analog)}A,{len(status)}D",
        *(f"{k},{name},{phase},Line,{unit},{a},0,0,-99999,99998,600,1,P" for k, (name, phase, unit, a, _) in enumerate(analog, 1)),
        *(f"{k},{name},,,0" for k, (name, _) in enumerate(status, 1)),
        str(FREQUENCY),
        "1",
        f"{RATE},{ROWS}",
        f"01/07/2024,10:30:{n:02}.000000",
        f"01/07/2024,10:30:{n + TRIGGER_ROWS / RATE:09.6f}",
        "ASCII",
        "1",
    ]
    rows = []
    for i in range(ROWS):
        t = i / RATE
        samples = [round(signal(t) / a) for _, _, _, a, signal in analog]
        bits = [int(is_set(t)) for _, is_set in status]
        rows.append(",".join(map(str, [i + 1, round(t * 1e6), *samples, *bits])))
    # some recorders spell the endings in capitals
    cfg, dat = (".CFG", ".DAT") if n % 5 == 0 else (".cfg", ".dat")
    save(f"{folder}/storm{n:02}{cfg}", head)
    save(f"{folder}/storm{n:02}{dat}", rows)


def main():
    if len(sys.argv) != 2:
        sys.exit("usage: make.py FOLDER")
    os.makedirs(sys.argv[1], exist_ok=True)
    for n in range(1, 21):
        make_pair(sys.argv[1], n)


if __name__ == "__main__":
    main()
