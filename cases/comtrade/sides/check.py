"""Values of both sides of transformers, of each command: python3 check.py COMTRADE FOLDER"""
import csv
import json
import math
import pathlib
import re
import subprocess
import sys
from fractions import Fraction

comtrade, folder = sys.argv[1:]
stem = f"{folder}/rec"
# id, unit, a, primary and secondary of the transformer, the side of the values, the peak in steps
CHANNELS = (("UA", "V", Fraction(1, 100), 110000, 100, "S", 8981), ("IA", "A", Fraction(1, 100), 600, 1, "P", 30000))
ROWS = 192


def sample(peak, k, row):
    return round(peak * math.cos(2 * math.pi * row / 96 - k))


def said(*words):
    return subprocess.run([comtrade, *words], capture_output=True, text=True, check=True).stdout


def wanted(channel, x, side):
    """a·x on a side."""
    _, _, a, primary, secondary, own, _ = channel
    factor = Fraction(1) if side == own else Fraction(primary, secondary) if side == "P" else Fraction(secondary, primary)
    return a * x * factor


def near(value, number):
    return abs(Fraction(value) - number) <= abs(number) * Fraction(1, 10**12)


lines = ["Hill,Bay,1999", "2,2A,0D"]
for n, (name, unit, a, primary, secondary, own, _) in enumerate(CHANNELS, 1):
    lines.append(f"{n},{name},A,,{unit},{float(a)},0,0,-32767,32767,{primary},{secondary},{own}")
lines += ["50", "1", f"4800,{ROWS}", "01/07/2024,10:30:00.000000", "01/07/2024,10:30:00.020000", "ASCII", "1"]
pathlib.Path(stem + ".cfg").write_text("\r\n".join(lines) + "\r\n", newline="")
samples = [[sample(channel[6], k, row) for k, channel in enumerate(CHANNELS)] for row in range(ROWS)]
pathlib.Path(stem + ".dat").write_text("".join(f"{i + 1},,{x},{y}\r\n" for i, (x, y) in enumerate(samples)), newline="")


def peaks(side):
    return [max((wanted(channel, row[k], side) for row in samples), key=abs) for k, channel in enumerate(CHANNELS)]


def test_csv(option, side):
    rows = list(csv.reader(said("csv", option, stem).splitlines()))[1:]
    return all(near(row[3 + k], wanted(channel, xs[k], side)) for row, xs in zip(rows, samples) for k, channel in enumerate(CHANNELS))


def test_show(option, side):
    found = json.loads(said("show", "--json", option, stem))["analog"]
    greatest = [max(wanted(channel, row[k], side) for row in samples) for k, channel in enumerate(CHANNELS)]
    return all(abs(it["greatest"] - value) <= abs(value) / 10**5 and it["side"][0].upper() == side for it, value in zip(found, greatest))


def test_measure(option, side):
    found = json.loads(said("measure", "--json", "--at=row 192", option, stem))["channels"]
    mean = [math.sqrt(sum(wanted(channel, row[k], side) ** 2 for row in samples[96:]) / 96) for k, channel in enumerate(CHANNELS)]
    return all(abs(it["rms"] - rms) <= rms * 1e-12 and abs(it["magnitude"] - rms) <= rms * 1e-4 for it, rms in zip(found, mean))


def test_plot(option, side):
    picture = said("plot", option, stem)
    sizes = re.findall(r"peak (−?[\d.]+) ([km]?)[VA]", picture)
    values = [float(size.replace("−", "-")) * {"k": 1000, "": 1, "m": 0.001}[prefix] for size, prefix in sizes]
    return len(values) == 2 and all(abs(abs(value) - abs(float(peak))) <= abs(float(peak)) * 1e-3 for value, peak in zip(values, peaks(side)))


def test_page(option, side):
    page = pathlib.Path(folder) / "page.html"
    page.write_text(said("page", option, stem))
    found = json.loads(subprocess.run(["node", "files/page_values.js", str(page), "192"], capture_output=True, text=True, check=True).stdout)[0]
    mean = [math.sqrt(sum(wanted(channel, row[k], side) ** 2 for row in samples[96:]) / 96) for k, channel in enumerate(CHANNELS)]
    return all(abs(it["rms"] - rms) <= rms * 1e-6 for it, rms in zip(found, mean))


def test_convert(option, side):
    new = f"{folder}/new{side}"
    said("convert", "--kind", "ascii", option, stem, new)
    cfg = [line.split(",") for line in pathlib.Path(new + ".cfg").read_text().split("\n")[2:4]]
    rows = [[int(x) for x in line.split(",")[2:4]] for line in pathlib.Path(new + ".dat").read_text().split()]
    return all(line[12].strip() == side and near(Fraction(line[5]) * row[k] + Fraction(line[6]), wanted(channel, xs[k], side))
               for row, xs in zip(rows, samples) for k, (line, channel) in enumerate(zip(cfg, CHANNELS)))


def test_compare(option, side):
    other = f"{folder}/new{'S' if side == 'P' else 'P'}"
    return "greatest" in said("compare", option, stem, stem) and "<svg" in said("compare", option, stem, other)


TESTS = {"csv": test_csv, "show": test_show, "measure": test_measure, "plot": test_plot, "page": test_page, "convert": test_convert, "compare": test_compare}
for words in ("csv --primary", "csv --secondary", "show --primary", "show --secondary", "measure --primary", "measure --secondary",
              "plot --primary", "plot --secondary", "page --primary", "page --secondary", "convert --primary", "convert --secondary",
              "compare --primary", "compare --secondary"):
    command, option = words.split()
    print(words, TESTS[command](option, option[2].upper()))
