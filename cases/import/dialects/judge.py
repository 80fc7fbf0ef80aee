"""Imports each record of this folder, and compares the new pair with what its want.json says.

    judge.py COMTRADE

A text is wanted byte for byte, by a pattern (`like`), or as the beginning of a longer one (`cut`).
Values are exact fractions, within `tol`; times count from the first row, by the stamps and by the
rates. `notes` must be told, `may` can be. Where `read` is false, nothing may be written, and the
reason is told."""
import json
import os
import re
import subprocess
import sys
import tempfile
from datetime import datetime, timedelta
from fractions import Fraction

HERE = os.path.dirname(os.path.abspath(__file__))
sys.path.insert(0, os.path.join(HERE, "../../../bench/agreement"))
sys.dont_write_bytecode = True
import model

EPOCH = datetime(1970, 1, 1)
NOTE = re.compile(r"^([a-z0-9-]+): .*\(.*\)$", re.M)


def is_text(want, found):
    if isinstance(want, str):
        return want == found
    if "like" in want:
        return re.fullmatch(want["like"], found) is not None
    return 16 <= len(found) <= want["most"] and found[:16] == want["cut"][:16]


def micros(text):
    return (datetime.strptime(text, "%Y-%m-%d %H:%M:%S.%f") - EPOCH) // timedelta(microseconds=1)


class Pair:
    """What import wrote, as the model reads it, with the fields that the model passes over."""

    def __init__(self, name):
        files = {}
        for ending in ("cfg", "dat"):
            with open("%s.%s" % (name, ending), "rb") as file:
                files[ending] = file.read()
        files["cfg"].decode("ascii")
        self.record = model.read(files)
        lines = [line.split(",") for line in files["cfg"].decode().split("\r\n")]
        k = len(self.record.head.analog)
        self.names = lines[0]
        self.analog = lines[2:2 + k]
        self.status = lines[2 + k:2 + k + len(self.record.head.status)]
        self.frequency = lines[2 + k + len(self.status)][0]


def with_head(want, pair):
    head = pair.record.head
    for name, found in (("station", pair.names[0]), ("device", pair.names[1])):
        if not is_text(want[name], found):
            yield name, found
    if Fraction(want["line_freq"]) != Fraction(pair.frequency):
        yield "frequency", pair.frequency
    for name, found in (("first", head.first), ("trigger", head.trigger)):
        if abs(micros(want[name]) - found) > want["instant_tol_us"]:
            yield name, EPOCH + timedelta(microseconds=found)
    if head.kind.decode() not in want["kind"]:
        yield "kind", head.kind
    rates = [] if head.nrates == 0 or all(rate == 0 for rate, _ in head.rates) else head.rates
    if want["rates"] is not None and [(Fraction(a), int(b)) for a, b in want["rates"]] != rates:
        yield "rates", rates


def with_times(want, pair):
    record = pair.record
    if [row[0] for row in record.rows] != list(range(1, want["rows"] + 1)):
        yield "rows", [row[0] for row in record.rows]
        return
    if want["times_us"] is None:
        return
    beside = Fraction(str(want["time_tol_us"]))
    ways = [[time and Fraction(time, 1000) for time in way] for way in record.ways()]
    stamps = [row[1] for row in record.rows]
    if None not in stamps:
        by_stamps = [(x - stamps[0]) * record.head.timemult for x in stamps]
        if any(abs(x - Fraction(y)) > beside for x, y in zip(by_stamps, want["times_us"])):
            yield "stamps", by_stamps
    if not any(all(x is not None and abs(x - Fraction(y)) <= beside + Fraction(1, 1000)
                   for x, y in zip(way, want["times_us"])) for way in ways):
        yield "times", ways


def with_analog(want, pair):
    if len(want["analog"]) != len(pair.analog):
        yield "analogue channels", len(pair.analog)
    for n, (channel, line) in enumerate(zip(want["analog"], pair.analog)):
        for at, name in enumerate(("id", "phase", "component", "unit"), 1):
            if not is_text(channel[name], line[at]):
                yield "%s of channel %d" % (name, n + 1), line[at]
        for at, name in ((7, "skew"), (10, "primary"), (11, "secondary")):
            if Fraction(channel[name]) != Fraction(line[at]):
                yield "%s of channel %d" % (name, n + 1), line[at]
        if channel["side"] != line[12]:
            yield "side of channel %d" % (n + 1), line[12]
        least, greatest = int(line[8]), int(line[9])
        samples = [row[2][n] for row in pair.record.rows if row[2][n] is not None]
        is_held = all(least <= sample <= greatest for sample in samples)
        if least > greatest or want.get("range_holds") and not is_held:
            yield "range of channel %d" % (n + 1), line[8:10]
        values = pair.record.values(n)
        for row, (value, found) in enumerate(zip(channel["values"], values)):
            if (value is None) != (found is None) or value is not None and (
                    abs(Fraction(value) - found) > Fraction(channel["tol"])):
                yield "row %d of channel %d" % (row + 1, n + 1), found
    ids = [line[1] for line in pair.analog]
    if want.get("distinct") and len(set(ids)) != len(ids):
        yield "ids", ids


def with_status(want, pair):
    if len(want["status"]) != len(pair.status):
        yield "status channels", len(pair.status)
    for n, (contact, line) in enumerate(zip(want["status"], pair.status)):
        for at, name in enumerate(("id", "phase", "component"), 1):
            if not is_text(contact[name], line[at]):
                yield "%s of contact %d" % (name, n + 1), line[at]
        if contact["normal"] != line[4]:
            yield "normal state of contact %d" % (n + 1), line[4]
        bits = "".join(str(row[3][n]) for row in pair.record.rows)
        if not re.fullmatch(contact["bits"].replace("?", "."), bits):
            yield "bits of contact %d" % (n + 1), bits


def with_notes(want, told):
    if not set(want["notes"]) <= told <= set(want["notes"]) | set(want["may"]):
        yield "notes", sorted(told)


def of_record(comtrade, folder, new):
    """What differs about one record: what, and what was found."""
    with open(os.path.join(folder, "want.json")) as file:
        want = json.load(file)
    files = sorted(os.path.join(folder, name) for name in os.listdir(folder)
                   if name.lower().startswith("in."))
    run = subprocess.run([comtrade, "import", *files, new], stdin=subprocess.DEVNULL,
                         stdout=subprocess.PIPE, stderr=subprocess.PIPE, timeout=60)
    there = [os.path.exists(new + ending) for ending in (".cfg", ".dat")]
    if not want["read"]:
        if run.returncode != 1 or any(there) or not run.stderr.strip():
            yield "refused", run.returncode
        return
    if run.returncode != 0 or not all(there):
        yield "read", run.stderr.decode("utf-8", "replace").strip()
        return
    pair = Pair(new)
    for part in (with_head, with_times, with_analog, with_status):
        yield from part(want, pair)
    yield from with_notes(want, set(NOTE.findall(run.stdout.decode("utf-8", "replace"))))


def main():
    comtrade, wrong = os.path.abspath(sys.argv[1]), 0
    names = sorted(name for name in os.listdir(HERE) if os.path.isdir(os.path.join(HERE, name)))
    for name in names:
        with tempfile.TemporaryDirectory() as room:
            found = list(of_record(comtrade, os.path.join(HERE, name), os.path.join(room, "new")))
        wrong += bool(found)
        for what, value in found[:3]:
            print("%s: %s: %s" % (name, what, str(value)[:200]))
    print("%d records, %d wrong" % (len(names), wrong))


main()
