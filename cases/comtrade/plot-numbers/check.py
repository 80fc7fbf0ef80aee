"""Reads the numbers of a picture back out of its SVG, and compares them with the pair's: each trace's highest and lowest point with the
channel's greatest and least value, where they stand with the rows' times, and every coordinate with the picture's edges."""

import importlib.util
import re
import subprocess
import sys
import xml.etree.ElementTree as tree

SVG = "{http://www.w3.org/2000/svg}"
PREFIXES = {"f": -15, "p": -12, "n": -9, "\u00b5": -6, "m": -3, "": 0, "k": 3, "M": 6, "G": 9, "T": 12, "P": 15, "E": 18}
NANOS = {"s": 1e9, "ms": 1e6, "\u00b5s": 1e3}


def points(path):
    """The points of a path of M, L, V and h0, each with a place on both axes."""
    x = y = None
    for letter, numbers in re.findall(r"([MLVHhvz])([^MLVHhvz]*)", path):
        given = [float(n) for n in numbers.replace(",", " ").split()]
        if letter in "ML":
            x, y = given
        elif letter == "V":
            (y,) = given
        elif letter == "H":
            (x,) = given
        elif letter == "h":
            x += given[0]
        elif letter == "v":
            y += given[0]
        if letter != "z":
            yield x, y


def line_through(known):
    """The line through the outermost of some (place, value)s."""
    (x1, v1), (x2, v2) = min(known), max(known)
    return lambda x: v1 + (x - x1) * (v2 - v1) / (x2 - x1)


class Picture:
    def __init__(self, text):
        self.root = tree.fromstring(text)
        self.all = list(self.root.iter())
        self.width, self.height = [float(n) for n in self.root.get("viewBox").split()[2:]]
        texts = [e for e in self.all if e.tag == SVG + "text"]
        unit = next(e.text.split()[0] for e in texts if "since the trigger" in (e.text or ""))
        top = next(float(e.get("y")) for e in texts if "since the trigger" in (e.text or ""))
        times = [(float(e.get("x")), float(e.text)) for e in texts if float(e.get("y")) == top and e.get("text-anchor") == "middle"]
        at = line_through(times)
        self.time = lambda x: at(x) * NANOS[unit]
        self.panels = self.read_panels(texts)

    def read_panels(self, texts):
        """The panels: what their values are, by the levels at the left, and the traces in them."""
        frames = [e for e in self.all if e.tag == SVG + "rect" and e.get("class") == "e"]
        traces = [e for e in self.all if e.tag == SVG + "g" and e.get("fill") == "none"]
        for frame, group in zip(frames, traces):
            top, height = float(frame.get("y")), float(frame.get("height"))
            inside = [e for e in texts if e.get("text-anchor") == "end" and top <= float(e.get("y")) - 4 <= top + height]
            title = next(e.text for e in texts if abs(float(e.get("y")) - (top - 5)) < 0.01)
            found = re.match(r"([fpnm\u00b5kMGTPE]?)(A|V|W|Hz),", title)
            factor = 10 ** PREFIXES[found[1]]
            yield line_through([(float(e.get("y")) - 4, float(e.text) * factor) for e in inside]), top, height, [
                e.get("d") for e in group if e.get("stroke-width") is None]

    def outside(self):
        """The points of paths outside the picture."""
        return [p for e in self.all if e.tag == SVG + "path" for p in points(e.get("d")) if not (0 <= p[0] <= self.width and 0 <= p[1] <= self.height)]


def check(pair, text):
    picture = Picture(text)
    assert not picture.outside(), picture.outside()[:3]
    columns, lines = list(zip(*(row[0] for row in pair.rows))), [channel.split(",") for channel in pair.channels]
    unit = [{"kV": 1000.0}.get(line[4], 1.0) for line in lines]
    wanted = {}
    for column, line, scale in zip(columns, lines, unit):
        values = [float(line[5]) * sample * scale for sample in column if sample is not None]
        wanted.setdefault(len(wanted), (values, column))
    seen = 0
    for value, top, height, traces in picture.panels:
        for path in traces:
            dots = list(points(path))
            high, low = min(dots, key=lambda p: p[1]), max(dots, key=lambda p: p[1])
            pixel = abs(value(top) - value(top + height)) / height
            near = [n for n, (values, _) in wanted.items()
                if abs(max(values) - value(high[1])) < 0.2 * pixel and abs(min(values) - value(low[1])) < 0.2 * pixel]
            assert near, (value(high[1]), value(low[1]))
            step = picture.time(1) - picture.time(0)
            when = [(i / pair.rate - pair.trigger) * 1e9
                for n in near for i, v in enumerate(wanted[n][0]) if v >= max(wanted[n][0]) - 0.2 * pixel]
            assert any(abs(picture.time(high[0]) - t) < 0.8 * step for t in when), (picture.time(high[0]), when[:3])
            seen += 1
    assert seen == len(lines), (seen, len(lines))
    return seen


def main(program, folder):
    spec = importlib.util.spec_from_file_location("make", "../docs/gallery/make.py")
    make = importlib.util.module_from_spec(spec)
    spec.loader.exec_module(make)
    for name in ("one_channel", "usual", "channels_64"):
        for kind in ("ASCII", "BINARY"):
            pair = getattr(make, name)()
            pair.kind = kind
            pair.write(folder)
            names = [f"{folder}/{pair.name}.{end}" for end in ("cfg", "dat")]
            text = subprocess.run([program, "plot", *names], stdout=subprocess.PIPE, check=True).stdout.decode()
            print(f"{pair.name} {kind}: {check(pair, text)} traces agree")
    for make_pair in make.GALLERY:
        pair = make_pair()
        pair.write(folder)
        names = [f"{folder}/{pair.name}.{end}" for end in ("cfg", "dat")]
        text = subprocess.run([program, "plot", *names], stdout=subprocess.PIPE, check=True).stdout.decode()
        root = tree.fromstring(text)
        width, height = [float(n) for n in root.get("viewBox").split()[2:]]
        out = [p for e in root.iter(SVG + "path") for p in points(e.get("d")) if not (0 <= p[0] <= width and 0 <= p[1] <= height)]
        print(f"{pair.name}: {'outside ' + str(out[:2]) if out else 'within'}")


if __name__ == "__main__":
    main(sys.argv[1], sys.argv[2])
