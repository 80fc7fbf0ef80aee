"""What the commands print of a record, as values."""
import base64
import csv
import functools
import io
import json
import os
import re
import shutil
import struct
import subprocess
from html import unescape


@functools.lru_cache(maxsize=40)
def run(program, *words):
    """What a command prints: status, standard output, standard error. Asked again with the same
    words, it isn't run again."""
    done = subprocess.run([program, *words], capture_output=True, timeout=1200)
    return done.returncode, done.stdout.decode("utf-8", "replace"), done.stderr.decode("utf-8",
                                                                                       "replace")


def number(text):
    return None if text == "" else float(text)


class Rows:
    """The rows of `csv`: instants, milliseconds since the trigger, values, bits."""

    def __init__(self, text, analog):
        lines = list(csv.reader(io.StringIO(text)))
        self.names, rows = lines[0][3:], lines[1:]
        self.instants = [row[1] for row in rows]
        self.ms_texts = [row[2] for row in rows]
        self.millis = [number(text) for text in self.ms_texts]
        self.texts = [[row[3 + k] for row in rows] for k in range(analog)]
        self.values = [[number(text) for text in texts] for texts in self.texts]
        self.bits = [[int(row[k]) for row in rows] for k in range(3 + analog, len(lines[0]))]
        self.count = len(rows)


def as_json(program, *words):
    status, out, said = run(program, *words)
    if status != 0:
        raise ValueError("%s: status %d: %s" % (words[0], status, said.strip()[-200:]))
    return json.loads(out)


PREFIX = {"E": 1e18, "P": 1e15, "T": 1e12, "G": 1e9, "M": 1e6, "k": 1e3, "": 1.0, "m": 1e-3,
          "µ": 1e-6, "u": 1e-6, "n": 1e-9, "p": 1e-12}


def sized(text, unit):
    """The number in `-6.218 kA` in this unit; the prefix of both is told by the letters before the
    same word."""
    value, _, its = text.partition(" ")
    for there, by in PREFIX.items():
        for here, into in PREFIX.items():
            is_same = its[len(there):] == unit[len(here):] != ""
            if is_same and its.startswith(there) and unit.startswith(here):
                return float(value) * by / into
    raise ValueError("%r is no number of %s" % (text, unit))


def line_through(known):
    """The line through the outermost of some pairs (place, value)."""
    (x1, v1), (x2, v2) = min(known), max(known)
    return lambda x: v1 + (x - x1) * (v2 - v1) / (x2 - x1)


# A name in the legend and its rms values; the name of a contact and its bars.
LEGEND = re.compile(r'<text x="948" y="[0-9.]+">([^<]*?)(?: \([A-Za-z0-9]+\))?</text>\n'
                    r'<text [^>]*>peak [^<]*?, rms ([^<]*)<')
BARS = re.compile(r'<text x="948" y="[0-9.]+">([^<]*)</text>\n(?:<path class="e"[^>]*/>\n)?'
                  r'((?:<path class="[ko]"[^>]*/>\n)*)')


class Picture:
    """The numbers of `plot`."""

    def __init__(self, text):
        self.about = unescape(re.search(r"<desc[^>]*>(.*?)</desc>", text, re.S)[1])
        self.trigger = re.match(r"Trigger (\S+ \S+)\. ", self.about)
        self.peaks = self.about.partition("Peaks:")[2]
        legends = LEGEND.findall(text)
        self.rms = [(unescape(name), said) for name, said in legends]
        ends = re.findall(r'<text x="([0-9.]+)" y="62" text-anchor="middle">(-?[0-9.]+)</text>',
                          text)
        unit = re.search(r'y="62">([^<]*) since the trigger<', text)
        scale = {"s": 1e3, "ms": 1.0, "µs": 1e-3}[unit[1]] if unit else 1.0
        self.times = [(float(x), float(label) * scale) for x, label in ends]
        self.bars = []
        for name, drawn in BARS.findall(text):
            spans = re.findall(r"M([0-9.]+) [0-9.]+h([0-9.]+)v", drawn)
            self.bars.append((unescape(name),
                              [(float(x), float(x) + float(width)) for x, width in spans]))

    def time_at(self, x):
        """The time of a place, by the labels of the axis."""
        (x0, t0), (x1, t1) = self.times[0], self.times[-1]
        return t0 + (x - x0) * (t1 - t0) / (x1 - x0)

    def step(self):
        """The time of a tenth of a pixel, to which places are rounded."""
        (x0, t0), (x1, t1) = self.times[0], self.times[-1]
        return 0.1 * (t1 - t0) / (x1 - x0)


class Page:
    """The numbers of `page`: those from which its own script draws."""

    def __init__(self, text):
        blocks = dict(re.findall(r'<script type="[^"]*" id="([^"]*)">([^<]*)</script>', text))
        self.head = json.loads(blocks["head"])
        count = self.head["rows"]
        raw = base64.b64decode(blocks["times"])
        self.millis = [t / 1e6 for t in struct.unpack("<%dd" % count, raw)]
        self.values = []
        for k, channel in enumerate(self.head["analog"]):
            raw = base64.b64decode(blocks["s%d" % k])
            form, missing = ("i", -(1 << 31)) if channel["wide"] else ("h", -(1 << 15))
            samples = struct.unpack("<%d%s" % (count, form), raw)
            self.values.append([None if x == missing else channel["a"] * x + channel["b"]
                                for x in samples])
        self.bits = []
        for k in range(len(self.head["status"])):
            raw = base64.b64decode(blocks["d%d" % k])
            self.bits.append([raw[i // 8] >> i % 8 & 1 for i in range(count)])


class Shown:
    """What the script of a page has and shows, run by node; some rows (from 1) in the tables."""

    def __init__(self, said):
        self.millis = [t / 1e6 for t in said["times"]]
        self.values, self.bits, self.extremes = said["values"], said["bits"], said["extremes"]
        self.changes, self.units, self.rows = said["changes"], said["units"], said["rows"]
        self.at = {one["row"]: one for one in said["at"]}

    @classmethod
    def of(cls, text, folder, rows):
        """None where node isn't here."""
        if not shutil.which("node"):
            return None
        page = os.path.join(folder, "page.html")
        with open(page, "w", encoding="utf-8") as file:
            file.write(text)
        script = os.path.join(os.path.dirname(os.path.abspath(__file__)), "page.js")
        status, out, said = run("node", script, page, *map(str, rows))
        if status != 0:
            raise ValueError("the page's script: " + said.strip()[-300:])
        return cls(json.loads(out))
