"""Reads the traces of a picture back out of its SVG: each sample of `csv` is a point of its
channel's trace, and each point is a sample."""
import bisect
import re
from html import unescape

from compare import told
from views import line_through, sized

FRAME = re.compile(r'<rect x="[0-9.]+" y="([0-9.]+)" width="[0-9.]+" height="([0-9.]+)" class="e"')
TITLE = re.compile(r'<text x="76" y="[0-9.]+" class="f" fill="#55595f">([^<]*)</text>\n'
                   r'(?:<path class="g"|<g fill)')
LEVEL = re.compile(r'M76 ([0-9.]+)H916"/>'
                   r'<text x="70" y="[0-9.]+" text-anchor="end">([^<]*)</text>')
GROUP = re.compile(r'<g fill="none" stroke-width="1.2"[^>]*>\n(.*?)</g>', re.S)
LEGEND = re.compile(r'<text x="948" y="[0-9.]+">([^<]*)</text>\n'
                    r'<text x="948" y="[0-9.]+" class="f" font-size="10.5"')


def points(path):
    """The points of a path of M, L, H, V and h, v."""
    x = y = 0.0
    for letter, numbers in re.findall(r"([MLVHhvz])([^MLVHhvz]*)", path):
        given = [float(n) for n in numbers.replace(",", " ").split()]
        if letter in "ML":
            x, y = given
        elif letter in "Vv":
            y = given[0] + (y if letter == "v" else 0)
        elif letter in "Hh":
            x = given[0] + (x if letter == "h" else 0)
        if letter != "z":
            yield x, y


class Panel:
    """A panel: its traces as points by name, and where a value stands."""

    def __init__(self, text, title, top, height):
        self.unit = unescape(title).split(",")[0]
        levels = [(float(label), float(y)) for y, label in LEVEL.findall(text)]
        self.is_scaled = len({value for value, _ in levels}) > 1
        self.place, self.beside = None, 0.0
        if self.is_scaled:
            self.place = line_through(levels)
            span = max(y for _, y in levels) - min(y for _, y in levels)
            self.beside = 0.07 + 0.12 * height / span
        body = GROUP.search(text)
        # (a trace of few rows has dots besides, in a path with its own width)
        paths = re.findall(r'<path class="[a-z]" stroke="[^"]*" d="([^"]*)"',
                           body[1]) if body else []
        self.traces = [sorted(points(path)) for path in paths]
        self.top, self.height = top, height


def panels(svg):
    """The panels of a picture, each with the names of its traces."""
    begin = 0
    for frame in FRAME.finditer(svg):
        text, begin = svg[begin:frame.start()], frame.end()
        title = list(TITLE.finditer(text))
        if not title:
            continue
        until = svg.find('<text x="76"', begin)
        names = [unescape(name)
                 for name in LEGEND.findall(svg[begin:until if until > 0 else len(svg)])]
        yield Panel(text[title[-1].start():], title[-1][1], float(frame[1]),
                    float(frame[2])), names


def wanted_of(show):
    """The channels by the names that legends give them."""
    found = {}
    for k, channel in enumerate(show["analog"]):
        for name in {channel["id"], "%s (%s)" % (channel["id"], channel["phase"])}:
            found.setdefault(name, []).append(k)
    return found


def off_trace(trace, dots, beside_x, beside_y):
    """The first of some dots that isn't on the trace."""
    xs = [x for x, _ in trace]
    for x, y in dots:
        first, last = bisect.bisect_left(xs, x - beside_x), bisect.bisect_right(xs, x + beside_x)
        ys = [trace[i][1] for i in range(first, last)]
        if not ys or not min(ys) - beside_y <= y <= max(ys) + beside_y:
            return x, y, ys[:4]
    return None


def with_traces(svg, show, rows):
    """The traces of a picture of a whole record."""
    axis = re.findall(r'<text x="([0-9.]+)" y="62" text-anchor="middle">(-?[0-9.]+)</text>', svg)
    unit = re.search(r'y="62">([^<]*) since the trigger<', svg)
    if len(axis) < 2 or not unit or rows.millis != sorted(rows.millis):
        return
    scale = {"s": 1e3, "ms": 1.0, "µs": 1e-3}[unit[1]]
    at = line_through([(float(label) * scale, float(x)) for x, label in axis])
    xs = [at(ms) for ms in rows.millis]
    beside_x = 0.07 + 0.12 * 840 / (float(axis[-1][0]) - float(axis[0][0]))
    if any(after - before < 1 for before, after in zip(xs, xs[1:])):
        beside_x += 0.5  # (rows of the same half pixel are drawn as one stroke)
    wanted, seen = wanted_of(show), 0
    for panel, names in panels(svg):
        if not panel.traces and svg.count(">no readings<") >= len(names):
            seen += len(names)
        elif len(names) != len(panel.traces):
            yield told("plot legends", names, len(panel.traces))
        for name, trace in zip(names, panel.traces):
            seen += 1
            # (of a long name, the last piece stands there)
            its = sorted({k for whole, numbers in wanted.items() if whole.endswith(name)
                          for k in numbers})
            if not its:
                yield told("plot trace", name, sorted(wanted))
            elif panel.is_scaled:
                yield from with_trace(panel, name, trace, [show["analog"][k] for k in its],
                                      [rows.values[k] for k in its],
                                      xs, beside_x)
    if seen != len(rows.values):
        yield told("plot traces", seen, len(rows.values))


def with_trace(panel, name, trace, channels, series, xs, beside_x):
    """A trace is that of one of the channels of its name."""
    off = None
    for channel, values in zip(channels, series):
        try:
            factor = 1 / sized("1 " + panel.unit, channel["unit"])
        except ValueError:
            return
        dots = [(x, panel.place(value * factor)) for x, value in zip(xs, values)
                if value is not None]
        off = off_trace(trace, dots, beside_x, panel.beside) or off_trace(sorted(dots), trace,
                                                                          beside_x, panel.beside)
        if off is None:
            return
    yield "plot trace of %s: %r isn't on the other" % (name, off)
