"""Compares the rms values of a picture's legends with those of measure: python3 legends.py COMTRADE STEM LAST-ROW-BEFORE FIRST-ROW-AFTER"""
import json
import re
import subprocess
import sys

NUMBER = r"([0-9.]+) ([kM]?)[AV]"


def value(number, prefix):
    return float(number) * {"": 1, "k": 1e3, "M": 1e6}[prefix]


def measured(comtrade, stem, row):
    """The rms values of the cycle that ends at a row, in V and A."""
    command = [comtrade, "measure", "--json", "--at", f"row {row}", stem]
    found = json.loads(subprocess.run(command, check=True, capture_output=True, text=True).stdout)
    return [channel["rms"] * (1e3 if channel["unit"][0] == "k" else 1) for channel in found["channels"]]


def main(comtrade, stem, before, after):
    svg = subprocess.run([comtrade, "plot", stem], check=True, capture_output=True, text=True).stdout
    legends = re.findall(r">(peak -?[^<;]*)</text>", svg)
    one, other = measured(comtrade, stem, before), measured(comtrade, stem, after)
    for legend, wanted, later in zip(legends, one, other):
        alone = re.search(rf"rms {NUMBER} after", legend)
        if alone:
            # (the fault may have begun in the cycle before it)
            same = abs(value(*alone.groups()) / later - 1) < 6e-4
            print(f"{legend}: {'as measure' if same else f'measure says {later:.6g}'}")
            continue
        found = re.search(rf"rms {NUMBER} \u2192 {NUMBER}", legend)
        if not found:
            print(f"{legend}: measure says {wanted:.6g}, {later:.6g}")
            continue
        pair = value(*found.groups()[:2]), value(*found.groups()[2:])
        same = abs(pair[0] / wanted - 1) < 6e-4 and abs(pair[1] / later - 1) < 6e-4
        print(f"{legend}: {'as measure' if same else f'measure says {wanted:.6g}, {later:.6g}'}")


main(*sys.argv[1:])
