"""Compares what two commands print of the same record. Each function yields what disagrees, in
words."""
import math
import re
from datetime import datetime

EPOCH = datetime(1970, 1, 1)
# Half a unit of the last digit that is printed: six digits, microseconds, four digits of a
# picture.
SIX, MICRO, FOUR = 5.1e-6, 0.00051, 5.1e-4


def micros(text):
    done = datetime.strptime(text, "%Y-%m-%d %H:%M:%S.%f") - EPOCH
    return (done.days * 86400 + done.seconds) * 1000000 + done.microseconds


def near(one, other, relative, absolute=0.0):
    if one is None or other is None:
        return one is other
    return abs(one - other) <= max(relative * max(abs(one), abs(other)), absolute)


def told(what, one, other):
    return "%s: %r, csv %r" % (what, one, other)


def extreme(rows, k, sign):
    """The least (-1) or greatest (1) value of a channel, and the time of its first row."""
    known = [(sign * v, -i) for i, v in enumerate(rows.values[k]) if v is not None]
    if not known:
        return None, None
    value, place = max(known)
    return sign * value, rows.millis[-place]


def changes_of(rows, contact):
    bits = rows.bits[contact]
    return [(rows.millis[i], bits[i]) for i in range(1, rows.count) if bits[i] != bits[i - 1]]


def with_show(show, rows):
    """What `show` prints."""
    if show["rows"] != rows.count:
        yield told("show rows", show["rows"], rows.count)
    if micros(show["first_row"]) != micros(rows.instants[0]):
        yield told("show first_row", show["first_row"], rows.instants[0])
    start = micros(show["trigger"]) - micros(show["first_row"])
    if not near(-start / 1000, rows.millis[0], 0, MICRO):
        yield told("show trigger", show["trigger"], rows.millis[0])
    for k, channel in enumerate(show["analog"]):
        for name, sign in (("least", -1), ("greatest", 1)):
            value, at = extreme(rows, k, sign)
            if not near(channel[name], value, SIX):
                yield told("show %s of %s" % (name, channel["id"]), channel[name], value)
            if not near(channel[name + "_ms"], at, 0, MICRO):
                yield told("show %s_ms of %s" % (name, channel["id"]), channel[name + "_ms"], at)
        missing = rows.values[k].count(None)
        if int(str(channel["missing"]).split(" ")[0] or 0) != missing:
            yield told("show missing of %s" % channel["id"], channel["missing"], missing)
    for k, contact in enumerate(show["status"]):
        if contact["first"] != rows.bits[k][0]:
            yield told("show first of %s" % contact["id"], contact["first"], rows.bits[k][0])
        wanted = changes_of(rows, k)
        found = contact["changes"]
        if len(found) != len(wanted):
            yield told("show changes of %s" % contact["id"], found, wanted)
        for change, (at, bit) in zip(found, wanted):
            if change["bit"] != bit or not near(change["ms"], at, 0, MICRO):
                yield told("show change of %s" % contact["id"], change, (at, bit))


def with_list(listed, show, rows):
    """What `list` prints."""
    [line] = listed["records"]
    if line["trigger"] != show["trigger"]:
        yield "list trigger: %r, show %r" % (line["trigger"], show["trigger"])
    if not near(line["ms"], rows.millis[-1] - rows.millis[0], 0, 2 * MICRO):
        yield told("list ms", line["ms"], rows.millis[-1] - rows.millis[0])
    if line["channels"] != {"analog": len(show["analog"]), "status": len(show["status"])}:
        yield told("list channels", line["channels"], (len(show["analog"]), len(show["status"])))
    changed = sum(1 for k in range(len(rows.bits)) if changes_of(rows, k))
    if line["changed"] != changed:
        yield told("list changed", line["changed"], changed)
    peaks = {}
    for k, channel in enumerate(show["analog"]):
        if channel["unit"] in ("A", "kA"):
            least, greatest = extreme(rows, k, -1)[0], extreme(rows, k, 1)[0]
            if least is not None:
                peak = max(least, greatest, key=abs), channel["unit"]
                peaks.setdefault(channel["id"], []).append(peak)
    said, place = line["greatest_current"], line["current_id"]
    if (said is not None) != bool(peaks):
        yield told("list greatest_current", said, peaks)
    elif said is not None and not any(near(abs(said), abs(v), SIX)
                                      for v, unit in peaks.get(place, [])
                                      if unit == line["current_unit"]):
        yield told("list greatest_current", said, peaks.get(place))


def gaps_of(rows):
    """Runs of rows with missing samples: the first and the last row, and the most channels that
    miss one."""
    gaps, begin = [], None
    missing = [sum(values[i] is None for values in rows.values) for i in range(rows.count)] + [0]
    for i, count in enumerate(missing):
        if count and begin is None:
            begin = i
        if not count and begin is not None:
            gaps.append((begin + 1, i, max(missing[begin:i])))
            begin = None
    return gaps


def with_events(listed, show, rows):
    """What `events` prints: each change of a contact, each gap, and the trigger."""
    wanted = sorted((at, k + 1, bit)
                    for k in range(len(rows.bits)) for at, bit in changes_of(rows, k))
    found, gaps = [], []
    by_time = dict(zip(("%.3f" % ms for ms in rows.millis), rows.instants))
    for event in listed["events"]:
        said = re.match(r"D([0-9]+) (?:.* )?([01])$", event["what"])
        gap = re.match(r"readings of ([0-9]+) channels? missing, rows? ([0-9]+)(?: to ([0-9]+))?$",
                       event["what"])
        if said:
            found.append((event["ms"], int(said[1]), int(said[2])))
        elif gap:
            gaps.append((int(gap[2]), int(gap[3] or gap[2]), int(gap[1])))
        elif event["what"].startswith("trigger") and event["instant"] != show["trigger"]:
            yield "events trigger: %r, show %r" % (event["instant"], show["trigger"])
        its = by_time.get("%.3f" % event["ms"])
        if (said or gap) and its and abs(micros(event["instant"]) - micros(its)) > 1:
            yield told("events instant", event["instant"], its)
    if sorted(gaps) != gaps_of(rows):
        yield told("events gaps", gaps, gaps_of(rows))
    found.sort()
    if len(found) != len(wanted):
        yield told("events", len(found), len(wanted))
    for one, other in zip(found, wanted):
        if one[1:] != other[1:] or not near(one[0], other[0], 0, MICRO):
            yield told("event", one, other)


def with_import(imported, rows, is_rounded):
    """The rows of what `import` wrote. Samples may be rounded to 16 bits where its note says so."""
    if imported.count != rows.count:
        yield told("rows imported", imported.count, rows.count)
    if imported.bits != rows.bits:
        yield "bits imported: others"
    for i, (one, other) in enumerate(zip(imported.instants, rows.instants)):
        if abs(micros(one) - micros(other)) > 1:
            yield told("instant imported, row %d" % (i + 1), one, other)
            break
    for k, values in enumerate(rows.values):
        size = max([abs(v) for v in values if v is not None], default=0)
        for i, (one, other) in enumerate(zip(imported.values[k], values)):
            if not near(one, other, 0, size * 1e-4 if is_rounded else size * 1e-12):
                yield told("value imported, channel %d, row %d" % (k + 1, i + 1), one, other)
                break


def with_library(record, show, rows):
    """The tables of the C library, by the Python package."""
    if len(record) != rows.count:
        yield told("library rows", len(record), rows.count)
    for i, nanos in enumerate(record.times_ns if None not in rows.millis else ()):
        if nanos != round((rows.millis[i] - rows.millis[0]) * 1e6):
            yield told("library time of row %d" % (i + 1), nanos, rows.millis[i] - rows.millis[0])
            break
    for k, channel in enumerate(record.analog):
        values = [None if math.isnan(v) else v for v in channel.values]
        for i, (one, other) in enumerate(zip(values, rows.values[k])):
            if not near(one, other, 1e-12, 1e-9 * abs(show["analog"][k]["b"])):
                yield told("library value of %s, row %d" % (channel.id, i + 1), one, other)
                break
    if [list(contact.bits) for contact in record.status] != rows.bits:
        yield "library bits: others than csv"
