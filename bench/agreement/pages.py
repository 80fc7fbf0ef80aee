"""Compares what a page has and shows of a record with the rows of `csv`, and with `measure`."""
from compare import FOUR, changes_of, extreme, near, told
from views import sized


def with_page(page, show, rows):
    """The data of `page`."""
    if page.head["rows"] != rows.count:
        yield told("page rows", page.head["rows"], rows.count)
    for i, (one, other) in enumerate(zip(page.millis, rows.millis)):
        if not near(one, other, 1e-12, 1e-9):
            yield told("page time of row %d" % (i + 1), one, other)
            break
    for k, channel in enumerate(show["analog"]):
        for i, (one, other) in enumerate(zip(page.values[k], rows.values[k])):
            if not near(one, other, 1e-12, 1e-9 * abs(channel["b"])):
                yield told("page value of %s, row %d" % (channel["id"], i + 1), one, other)
                break
    if page.bits != rows.bits:
        yield told("page bits", page.bits, rows.bits)


def shown_as(text, value, unit):
    """Whether a cell of a page's table shows a value: four digits with a prefix, or nothing where
    it is missing."""
    if value is None or text == "":
        return value is None and text == ""
    return near(sized(text.replace("\u2212", "-"), unit), value, FOUR, 1e-12)


def with_script(shown, show, rows, measured):
    """What the page's own script has and shows: rows, values, bits, extremes, its tables, and rms
    values and phasors as `measure`."""
    if shown.rows != rows.count or shown.bits != rows.bits:
        yield told("script rows or bits", shown.rows, rows.count)
    if any(not near(one, other, 1e-12, 1e-9) for one, other in zip(shown.millis, rows.millis)):
        yield "script times: others than csv"
    if [len(changes) for changes in shown.changes] != [len(changes_of(rows, k))
                                                       for k in range(len(rows.bits))]:
        yield told("script changes", shown.changes,
                   [len(changes_of(rows, k)) for k in range(len(rows.bits))])
    for k, channel in enumerate(show["analog"]):
        size = 1e-9 * max([abs(v) for v in rows.values[k] if v is not None], default=0)
        for i, (one, other) in enumerate(zip(shown.values[k], rows.values[k])):
            if not near(one, other, 1e-12, size):
                yield told("script value of %s, row %d" % (channel["id"], i + 1), one, other)
                break
        ends = (extreme(rows, k, -1)[0], extreme(rows, k, 1)[0])
        if not all(near(one, other, 1e-12, size) for one,
                   other in zip(shown.extremes[k] or (None, None), ends)):
            yield told("script extremes of %s" % channel["id"], shown.extremes[k], ends)
        for row, at in shown.at.items():
            if not shown_as(at["cells"][k][0], rows.values[k][row - 1], channel["unit"]):
                yield told("page's table, %s in row %d" % (channel["id"], row), at["cells"][k][0],
                           rows.values[k][row - 1])
    for made in measured:
        yield from with_cycles(shown.at[made["last_row"]], made)


def with_cycles(at, made):
    """The rms values and phasors that the page's script computes of the cycle that `measure --at`
    measured."""
    zero = next((at["cycles"][k]["angle"] for k, c in enumerate(made["channels"])
                 if c["n"] == made["reference"] and at["cycles"][k]), 0)
    for mine, channel in zip(at["cycles"], made["channels"]):
        name = "%s, row %d" % (channel["id"], made["last_row"])
        if (mine is None) != (channel["rms"] is None):
            yield "script rms of %s: %r, measure %r" % (name, mine, channel["rms"])
        elif mine:
            size, beside = channel["rms"], 1e-9 * channel["rms"]
            if not near(mine["rms"], size, 1e-9):
                yield "script rms of %s: %r, measure %r" % (name, mine, size)
            if not near(mine["size"], channel["magnitude"], 1e-9, beside):
                yield "script magnitude of %s: %r, measure %r" % (name, mine, channel["magnitude"])
            if mine["hasAngle"] != (channel["angle"] is not None):
                yield "script angle of %s: %r, measure %r" % (name, mine, channel["angle"])
            elif mine["hasAngle"]:
                angle = mine["angle"] - zero
                off = (angle - channel["angle"] + 540) % 360 - 180
                if abs(off) > 1e-6 * max(1, size / mine["size"]):
                    yield "script angle of %s: %r, measure %r" % (name, angle, channel["angle"])
