#!/usr/bin/env python3
"""Makes the inputs that docs/PERFORMANCE.md speaks of, with 32 analogue and 64 status channels, in the folder that is named:
a pair of ASCII files of 45,000 rows, a pair of BINARY files of 200,000 rows, and a script whose every scan is recorded."""

import random
import struct
import sys

ANALOG, STATUS, LIMIT = 32, 64, 16_777_216


def configuration(rows, kind):
    lines = ["Bay 1,DFR,1999", f"{ANALOG + STATUS},{ANALOG}A,{STATUS}D"]
    lines += [f"{i + 1},I{i},A,line 1,A,0.0015,0,0,-32767,32767,400,1,P" for i in range(ANALOG)]
    lines += [f"{i + 1},S{i},,line 1,0" for i in range(STATUS)]
    at = "29/02/2000,00:00:00.000000"
    lines += ["50", "1", f"4800,{rows}", at, at, kind, "1"]
    return "".join(line + "\r\n" for line in lines)


def scans(count):
    numbers = random.Random(7)
    for _ in range(count):
        values = [numbers.randint(-32767, 32767) for _ in range(ANALOG)]
        yield values, [numbers.getrandbits(1) for _ in range(STATUS)]


def ascii_row(i, values, bits):
    return ",".join(map(str, [i + 1, i * 1_000_000 // 4800, *values, *bits])) + "\r\n"


def binary_row(i, values, bits):
    groups = [sum(bits[16 * g + k] << k for k in range(16)) for g in range(STATUS // 16)]
    return struct.pack(f"<II{ANALOG}h{STATUS // 16}H", i + 1, i * 1_000_000 // 4800, *values, *groups)


def script(made):
    text = ["station Bay 1", "device DFR", "freq 50", "rate 4800", "start 0", "limits 0,999,1000,4"]
    text += [f"analog I{i},A,,A,1,0,0,-32767,32767,1,1,P" for i in range(ANALOG)]
    text += [f"status S{i},,,0" for i in range(STATUS)] + ["go"]
    size = sum(len(line) + 1 for line in text)
    for k, (values, bits) in enumerate(made):
        line = "scan " + ",".join(map(str, values)) + "/" + ",".join(map(str, bits))
        lines = [line] + ["trigger"] * (k % 1000 == 0) + ["take"] * (k % 1000 == 999)
        size += sum(len(line) + 1 for line in lines)
        if size > LIMIT:
            break
        text += lines
    return "\n".join(text) + "\n"


def main(folder):
    made = list(scans(50_000))
    with open(f"{folder}/ascii.cfg", "w", newline="") as file:
        file.write(configuration(45_000, "ASCII"))
    with open(f"{folder}/ascii.dat", "w", newline="") as file:
        file.writelines(ascii_row(i, *made[i]) for i in range(45_000))
        file.write("\x1a")
    with open(f"{folder}/binary.cfg", "w", newline="") as file:
        file.write(configuration(200_000, "BINARY"))
    with open(f"{folder}/binary.dat", "wb") as file:
        file.writelines(binary_row(i, *made[i % 50_000]) for i in range(200_000))
    with open(f"{folder}/recorded.txt", "w", newline="") as file:
        file.write(script(made))


if __name__ == "__main__":
    main(sys.argv[1])
