"""Compares what a page computes with what measure prints: python3 compare.py COMTRADE STEM ROW.."""
import json
import pathlib
import subprocess
import sys

FILES = pathlib.Path(__file__).parent.parent.parent / "files"


def near(one, other, size):
    return abs(one - other) <= 1e-9 * max(1.0, size)


def differs(mine, theirs, zero):
    """What differs between the page's values of a channel, whose reference angle is given, and a line of measure."""
    if theirs["rms"] is None or mine is None:
        return "" if theirs["rms"] is None and mine is None else f"page {mine}, measure {theirs['rms']}"
    if not near(mine["rms"], theirs["rms"], theirs["rms"]) or not near(mine["size"], theirs["magnitude"], theirs["rms"]):
        return f"page {mine['rms']} {mine['size']}, measure {theirs['rms']} {theirs['magnitude']}"
    if theirs["angle"] is None:
        return "page has an angle" if mine["hasAngle"] else ""
    turned = (mine["angle"] - zero - theirs["angle"] + 540) % 360 - 180
    return "" if abs(turned) < 1e-7 else f"page {mine['angle'] - zero}, measure {theirs['angle']} degrees"


def main(comtrade, stem, rows):
    page = subprocess.run([comtrade, "page", stem], check=True, capture_output=True).stdout
    html = pathlib.Path(stem + ".html")
    html.write_bytes(page)
    script = ["node", FILES / "page_values.js", html, *rows]
    found = json.loads(subprocess.run(script, check=True, capture_output=True, text=True).stdout)
    name, count = pathlib.Path(stem).name, 0
    for row, channels in zip(rows, found):
        command = [comtrade, "measure", "--json", "--at", f"row {row}", stem]
        measured = json.loads(subprocess.run(command, check=True, capture_output=True, text=True).stdout)
        place = measured["reference"] - 1
        for mine, theirs in zip(channels, measured["channels"]):
            wrong = differs(mine, theirs, channels[place]["angle"])
            count += 1
            if wrong:
                print(f"{name} row {row} {theirs['id']}: {wrong}")
    print(f"{name}: {count} compared")


main(sys.argv[1], sys.argv[2], sys.argv[3:])
