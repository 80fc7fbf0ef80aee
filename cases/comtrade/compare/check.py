"""Compares a picture of two records with what a plain reader of both pairs works out: which channels are in it, the highest and the lowest point of
each trace and when the highest is, the greatest difference and when it is, the rms difference, the number of instants."""

import bisect
import importlib.util
import re
import subprocess
import sys


def module(name, path):
    spec = importlib.util.spec_from_file_location(name, path)
    made = importlib.util.module_from_spec(spec)
    spec.loader.exec_module(made)
    return made


Record = module("reader", "files/reader.py").Record
numbers = module("numbers_of_plots", "comtrade/plot-numbers/check.py")
SVG = numbers.SVG


class Both(numbers.Picture):
    """A picture of two records: in each panel a trace of A, and one of B."""

    def read_panels(self, texts):
        frames = [e for e in self.all if e.tag == SVG + "rect" and e.get("class") == "e"]
        groups = [e for e in self.all if e.tag == SVG + "g" and e.get("fill") == "none"]
        assert len(groups) == 2 * len(frames), (len(groups), len(frames))
        for k, frame in enumerate(frames):
            top, height = float(frame.get("y")), float(frame.get("height"))
            inside = [e for e in texts if e.get("text-anchor") == "end" and top <= float(e.get("y")) - 4 <= top + height]
            title = next(e.text for e in texts if abs(float(e.get("y")) - (top - 5)) < 0.01)
            factor = 10 ** numbers.PREFIXES[re.match(r"([fpnm\u00b5kMGTPE]?)(A|V|W|Hz),", title)[1]]
            value = numbers.line_through([(float(e.get("y")) - 4, float(e.text) * factor) for e in inside])
            one, other = ([e for e in group if e.get("stroke-width") is None] for group in groups[2 * k : 2 * k + 2])
            assert len(one) == len(other) == 1
            assert one[0].get("stroke-dasharray") is None and other[0].get("stroke-dasharray") == "6 5"
            beside = [e.text for e in texts if float(e.get("x")) > 940 and top <= float(e.get("y")) <= top + height]
            yield value, height / abs(value(top) - value(top + height)), one[0].get("d"), other[0].get("d"), beside


FACTORS = {"kV": 1000.0, "kA": 1000.0}


def values(record, k):
    """(time since the trigger in ns, value in V or A) of a channel, the missing ones left out."""
    channel = record.analog[k]
    a, b, factor = float(channel[5]), float(channel[6]), FACTORS.get(channel[4], 1.0)
    return [(t, (a * int(row[2 + k]) + b) * factor) for t, row in zip(record.since, record.rows) if row[2 + k] not in ("", "99999")]


def quantity(text):
    number, unit = text.split(" ")
    prefix = unit[:-1]
    return float(number) * 10 ** numbers.PREFIXES[prefix]


def time_of(text):
    number, unit = text.split(" ")
    return float(number) * numbers.NANOS[unit]


def partners(one, other):
    """Equal channels: of the same name, unit and side, and of the same phase and component where both say them."""
    taken, found = set(), []
    for i, a in enumerate(one.analog):
        for k, b in enumerate(other.analog):
            agree = all(not a[n] or not b[n] or a[n] == b[n] for n in (2, 3))
            if k not in taken and (a[1], a[4], a[12]) == (b[1], b[4], b[12]) and agree:
                taken.add(k)
                found.append((i, k))
                break
    return sorted(found + alike(one, other, found))


def alike(one, other, equal):
    """Voltages and currents of other names, units or components: each the only one of its phase and kind on its side in its record."""
    mine, theirs = ({pair[n] for pair in equal} for n in (0, 1))
    kind = lambda channel: (channel[4][-1], channel[2], channel[12])
    found = []
    for i, a in enumerate(one.analog):
        fits = [k for k, b in enumerate(other.analog) if kind(a) == kind(b)]
        if a[2] and i not in mine and len(fits) == 1 and fits[0] not in theirs and [kind(b) for b in one.analog].count(kind(a)) == 1:
            found.append((i, fits[0]))
    return found


def differences(mine, theirs):
    """(time, A - B) at A's rows: B's value at that instant, or on the straight line between its two rows around it, at most 2.5 ms apart."""
    times, found = [t for t, _ in theirs], []
    for t, value in mine:
        at = bisect.bisect_right(times, t) - 1
        if at < 0:
            continue
        before, first = theirs[at]
        if before == t:
            found.append((t, value - first))
        elif at + 1 < len(theirs) and theirs[at + 1][0] - before <= 2_500_000:
            after, second = theirs[at + 1]
            found.append((t, value - (first + (second - first) * (t - before) / (after - before))))
    return found


def near(a, b, most):
    return abs(a - b) <= most


def check_trace(picture, path, value, scale, known):
    """The highest and lowest point of a trace, by the values known of it in what is drawn."""
    dots = list(numbers.points(path))
    high, low = min(dots, key=lambda p: p[1]), max(dots, key=lambda p: p[1])
    pixel = 1 / scale
    greatest, least = max(v for _, v in known), min(v for _, v in known)
    assert near(value(high[1]), greatest, 0.2 * pixel) and near(value(low[1]), least, 0.2 * pixel), (value(high[1]), greatest, pixel)
    step = picture.time(1) - picture.time(0)
    assert any(near(picture.time(high[0]), t, 0.8 * step) for t, v in known if v >= greatest - 0.2 * pixel)


def check_words(beside, mine, theirs, drawn):
    """The peaks and the differences that the picture tells."""
    peaks = [quantity(re.match(r"peak (\S+ \S+?)(,|$)", text)[1]) for text in beside if text.startswith("peak")]
    for peak, known in zip(peaks, (mine, theirs)):
        wanted = [max(abs(v) for t, v in known if drawn[0] - more <= t <= drawn[1] + more) for more in (0, 5e6)]
        assert any(near(abs(peak), most, 6e-4 * most + 1e-9) for most in wanted), (peak, wanted)
    told = differences(mine, theirs)
    greatest, at = re.match("A \u2212 B: greatest (.*) at (.*)", next(t for t in beside if "greatest" in t)).groups()
    rms, count = re.match("A \u2212 B: rms (.*), instants: (.*)", next(t for t in beside if "rms" in t and "instants" in t)).groups()
    most = max(abs(d) for _, d in told)
    assert near(abs(quantity(greatest)), most, 6e-4 * most + 1e-9), (greatest, most)
    assert any(near(time_of(at), t, 600) for t, d in told if abs(d) >= most * (1 - 1e-9) - 1e-9), at
    wanted = (sum(d * d for _, d in told) / len(told)) ** 0.5
    assert near(quantity(rms), wanted, 6e-4 * wanted + 1e-9), (rms, wanted)
    assert int(count) == len(told), (count, len(told))
    return len(told)


def main(program, folder, words):
    stems = words[-2:]
    text = subprocess.run([program, "compare", *words[:-2], *(f"{folder}/{s}" for s in stems)], stdout=subprocess.PIPE, check=True).stdout.decode()
    picture = Both(text)
    panels = list(picture.panels)
    assert not picture.outside(), picture.outside()[:3]
    one, other = (Record(f"{folder}/{stem}") for stem in stems)
    shift = 0 if "trigger" in words else round((other.trigger - one.trigger).total_seconds() * 1e6) * 1000
    first, last = max(one.since[0], other.since[0] + shift), min(one.since[-1], other.since[-1] + shift)
    drawn = (-(10**18), 10**18) if "--whole" in words else (first, last)
    pairs = partners(one, other)
    assert len(panels) == len(pairs), (len(panels), len(pairs))
    counts = []
    for (value, scale, path, path_other, beside), (i, k) in zip(panels, pairs):
        mine, theirs = values(one, i), [(t + shift, v) for t, v in values(other, k)]
        for its, known in ((path, mine), (path_other, theirs)):
            check_trace(picture, its, value, scale, [(t, v) for t, v in known if drawn[0] - 5e6 <= t <= drawn[1] + 5e6])
        counts.append(check_words(beside, mine, theirs, drawn))
    names = ",".join(one.analog[i][1] for i, _ in pairs)
    print(f"{' '.join(words)}: {names} agree; instants {sorted(set(counts))}")


main(sys.argv[1], sys.argv[2], sys.argv[3:])
