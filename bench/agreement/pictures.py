"""Compares the texts and bars of a picture with the rows of `csv`."""
import re

from compare import FOUR, extreme, near, told
from measures import only_cycle, rms
from views import sized

# The description of a picture has the peaks of so many channels.
MOST_PEAKS = 12


def around(values, row, cycle, is_inception):
    """The rms values before and after a row: of the last but one cycle before it, and of the next
    one. Before a trigger the last one does where there is no other; a fault may begin in it."""
    before = after = None
    for end in (row - cycle,) if is_inception else (row - cycle, row):
        if end - cycle >= 0 and before is None:
            before = rms(values[end - cycle:end])
    if row + cycle <= len(values):
        after = rms(values[row:row + cycle])
    return before, after


def is_level(text, unit, wanted):
    """Whether a text is this value; that of a channel with the same name and another unit isn't."""
    try:
        return near(sized(text, unit), wanted, FOUR)
    except ValueError:
        return False


def with_levels(picture, show, rows, row, is_inception):
    """The rms values in `plot` around an inception or a trigger, where a cycle has a whole number
    of rows."""
    cycle = only_cycle(show)
    if cycle != int(cycle) or cycle < 8:
        return
    for name, said in picture.rms:
        parts = re.sub(" (after|before)$", "", said).split(" → ")
        # (of a long name, the last piece stands there)
        named = [k for k, channel in enumerate(show["analog"]) if channel["id"].endswith(name)]
        if any(None in rows.values[k] for k in named):
            continue
        sets = [[value for value in around(rows.values[k], row, int(cycle), is_inception)
                 if value is not None] for k in named]
        if not any(len(parts) == len(wanted)
                   and all(is_level(part, show["analog"][k]["unit"], one)
                           for part, one in zip(parts, wanted))
                   for k, wanted in zip(named, sets)):
            yield told("plot rms of %s" % name, said, sets)


def with_bars(picture, show, rows):
    """The bars of contacts in `plot`: each begins and ends where the contact changes, to a tenth
    of a pixel."""
    bars = dict(picture.bars)
    if len(picture.times) < 2 or rows.millis != sorted(rows.millis):
        return
    for k, contact in enumerate(show["status"]):
        spans, begin = [], None
        for i, bit in enumerate(rows.bits[k] + [0]):
            if bit and begin is None:
                begin = i
            if not bit and begin is not None:
                spans.append((rows.millis[begin], rows.millis[min(i, rows.count - 1)]))
                begin = None
        drawn = bars.get(contact["id"])
        if drawn is None:
            yield told("plot bars of %s" % contact["id"], None, spans)
            continue
        drawn = [(picture.time_at(x), picture.time_at(end)) for x, end in drawn]
        if sum(end - x for x, end in spans) and not drawn:
            yield told("plot bars of %s" % contact["id"], drawn, spans)
        # Bars that would overlap are drawn as one, and the least width is half a pixel.
        reach = 8 * picture.step()
        for x, end in spans:
            if not any(a - reach <= x and end <= b + reach for a, b in drawn):
                yield told("plot bar of %s" % contact["id"], drawn, (x, end))


def with_picture(picture, show, rows):
    """The texts of `plot`: peaks and the trigger."""
    if not picture.trigger or picture.trigger[1] != show["trigger"]:
        yield "plot trigger: %r, show %r" % (picture.about[:40], show["trigger"])
    drawn = [k for k in range(len(show["analog"])) if extreme(rows, k, 1)[0] is not None]
    left = picture.peaks
    for k in drawn:
        channel = show["analog"][k]
        wanted = max(extreme(rows, k, -1)[0], extreme(rows, k, 1)[0], key=abs)
        left = re.sub(r"^(?: [^;]* no readings;)+", "", left)
        said = re.match(r" %s (-?[0-9.]+(?:e-?[0-9]+)? [^;]*);" % re.escape(channel["id"]), left)
        if not said and k >= MOST_PEAKS:
            break
        if not said or not near(abs(sized(said[1], channel["unit"])), abs(wanted), FOUR):
            yield told("plot peak of %s" % channel["id"], left[:60], wanted)
            break
        left = left[said.end():]
