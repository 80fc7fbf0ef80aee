"""Whether phasors of currents whose dc part decays are those that were written down: python3 check.py COMTRADE FOLDER"""
import json
import math
import subprocess
import sys

from records import ANGLES, PEAK


def measured(comtrade, stem, words):
    text = subprocess.run([comtrade, "measure", "--json", *words, stem], capture_output=True, text=True, check=True).stdout
    return json.loads(text)["channels"]


def worst(channels):
    """The greatest error of a magnitude in percent, and of an angle in degrees."""
    sizes, angles = [], []
    for channel, angle in zip(channels[1:], ANGLES):
        sizes.append(abs(channel["magnitude"] / (PEAK / math.sqrt(2)) - 1) * 100)
        angles.append(abs((channel["angle"] - angle + 180) % 360 - 180))
    return max(sizes), max(angles)


def within(name, channels, size, angle):
    """Whether no error is greater than these, which are known from the formula."""
    found = worst(channels)
    text = "as it should" if found[0] <= size and found[1] <= angle else f"{found[0]:.3f} %, {found[1]:.3f} degrees"
    print(f"{name}: within {size} % and {angle} degrees: {text}")


def lines(channels):
    return sum(channel["dc_fall"] is not None for channel in channels)


def main(comtrade, folder):
    first, third = ["--at=row 96"], ["--at=row 288"]
    within("15 ms, first cycle", measured(comtrade, f"{folder}/tau15", first), 4.9, 1.8)
    within("45 ms, first cycle", measured(comtrade, f"{folder}/tau45", first), 1, 0.3)
    within("45 ms, third cycle", measured(comtrade, f"{folder}/tau45", third), 1, 0.3)
    within("45 ms, first two cycles", measured(comtrade, f"{folder}/tau45", ["--from=row 1", "--to=row 192"]), 3, 0.5)
    within("100 ms, first cycle", measured(comtrade, f"{folder}/tau100", first), 0.3, 0.1)
    within("45 ms, 60 Hz at 4000/s", measured(comtrade, f"{folder}/sixty", ["--at=row 66"]), 1, 0.3)
    inrush = measured(comtrade, f"{folder}/inrush", first)
    within("45 ms with harmonics", inrush, 1, 0.3)
    falls = [channel["dc_fall"] - -math.cos(math.radians(angle)) * PEAK * (1 - math.exp(-20 / 45)) for channel, angle in zip(inrush[1:], ANGLES)
             if channel["dc_fall"] is not None]
    print(f"{len(falls)} of them have a line; falls within 1 % of the peak: {all(abs(fall) < PEAK / 100 for fall in falls)}")
    print("32 rows a cycle:", lines(measured(comtrade, f"{folder}/few", ["--at=row 32"])), "lines")
    for other in (45, 47.5, 48, 49, 49.8, 50.2, 51, 52, 55):
        one = [measured(comtrade, f"{folder}/off{other}", [f"--at=row {row}"]) for row in (96, 130, 200, 288)]
        more = [measured(comtrade, f"{folder}/off{other}", ["--from=row 1", f"--to=row {row}"]) for row in (192, 480)]
        print(f"{other} Hz:", sum(map(lines, one + more)), "lines")
    notes = subprocess.run([comtrade, "measure", *first, "--channels=U,I1,I10,I11", f"{folder}/tau45"], capture_output=True, text=True).stdout
    print(*(line for line in notes.splitlines() if line.startswith("note")), sep="\n")


main(sys.argv[1], sys.argv[2])
