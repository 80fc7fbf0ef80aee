"""Compares what `measure` prints with values computed from the rows of `csv`."""
import cmath
import math

from compare import MICRO, near, told


def rms(values):
    return math.sqrt(math.fsum(v * v for v in values) / len(values))


def rows_of_cycle(show, row):
    """The rows of a cycle at the rate of a row, from 1; a part of a row counts too."""
    return next(rate["rate"] for rate in show["rates"]
                if row <= rate["last_row"]) / show["frequency"]


def only_cycle(show):
    """The rows of a cycle where the record has one rate; else no whole number."""
    if len(show["rates"]) != 1 or not show["frequency"]:
        return 0.5
    return show["rates"][0]["rate"] / show["frequency"]


def beside_of(channel, values):
    """By how much a value differs that is computed with 53 bits from a, x and b."""
    return 1e-14 * (abs(channel["b"]) + max([abs(v) for v in values if v is not None], default=0))


def fundamental(values):
    """The phasor of the fundamental of a cycle, by its rms value."""
    size = len(values)
    terms = [v * cmath.exp(-2j * math.pi * i / size) for i, v in enumerate(values)]
    whole = complex(math.fsum(x.real for x in terms), math.fsum(x.imag for x in terms))
    return whole * math.sqrt(2) / size


def with_measure(made, show, rows, skews):
    """What `measure --at` prints, over the rows that it names; rms values and phasors where a
    cycle has a whole number of rows."""
    first, last = made["first_row"] - 1, made["last_row"]
    size, phasors = rows_of_cycle(show, last), {}
    for k, channel in enumerate(made["channels"]):
        values = rows.values[k][first:last]
        name = "%s, rows %d to %d" % (channel["id"], first + 1, last)
        if None in values:
            if channel["rms"] is not None:
                yield told("measure rms of " + name, channel["rms"], None)
            continue
        peak, beside = max(values, key=abs), beside_of(show["analog"][k], rows.values[k])
        if not near(abs(channel["peak"]), abs(peak), 1e-12, beside):
            yield told("measure peak of " + name, channel["peak"], peak)
        at = [rows.millis[first + i] for i, v in enumerate(values)
              if near(v, channel["peak"], 1e-12, beside)]
        if not any(near(channel["peak_ms"], t, 0, MICRO) for t in at):
            yield told("measure peak_ms of " + name, channel["peak_ms"], at)
        if size != len(values) or made["cycles"] != 1:
            continue
        if not near(channel["rms"], rms(values), 1e-12, beside):
            yield told("measure rms of " + name, channel["rms"], rms(values))
        if channel["dc_fall"] is not None:
            continue  # the fit has a line, which a Fourier sum doesn't
        phasor = fundamental(values)
        turn = -2j * math.pi * show["frequency"] * skews[k] * 1e-6
        phasors[channel["n"]] = phasor * cmath.exp(turn)
        if not near(channel["magnitude"], abs(phasor), 1e-9, 1e-9 * abs(peak)):
            yield told("measure magnitude of " + name, channel["magnitude"], abs(phasor))
    yield from with_angles(made, phasors)


def with_angles(made, phasors):
    """The angles, relative to that of the reference."""
    base = phasors.get(made["reference"])
    for channel in made["channels"]:
        phasor, angle = phasors.get(channel["n"]), channel["angle"]
        if base and phasor and angle is not None and abs(phasor) > 1e-3:
            off = (math.degrees(cmath.phase(phasor / base)) - angle + 180) % 360 - 180
            if abs(off) > 1e-5:
                yield told("measure angle of channel %d" % channel["n"], angle, off)


def with_currents(made, show, rows):
    """What `measure` prints without a moment: rms values of the cycle before the inception and of
    the greatest after it."""
    cycle = only_cycle(show)
    numbers = [current["n"] for current in made["currents"]]
    for current in made["currents"]:
        values, left = rows.values[current["n"] - 1], current["left_row"]
        is_alone = numbers.count(current["n"]) == 1
        if left is None or cycle != int(cycle) or None in values or not is_alone:
            continue
        if not near(current["left_ms"], rows.millis[left - 1], 0, MICRO):
            yield told("measure left_ms of %s" % current["id"], current["left_ms"],
                       rows.millis[left - 1])
        ends = {end: rms(values[end - int(cycle):end]) for end in range(left - 1, rows.count + 1)
                if end >= cycle}
        # (where there is no other cycle before it, the fault may have begun in the last one)
        is_known = left - 1 >= 2 * int(cycle)
        before = ends[left - 1] if is_known else None
        if not near(current["rms_before"], before, 1e-9):
            yield told("measure rms_before of %s" % current["id"], current["rms_before"], before)
        if (current["above_ms"] is not None) != is_known:
            yield told("measure above_ms of %s" % current["id"], current["above_ms"], before)
        # (the greatest until the current keeps to a waveform again)
        if not any(near(current["rms_greatest"], size, 1e-9) for end, size in ends.items()
                   if end >= left):
            yield told("measure rms_greatest of %s" % current["id"], current["rms_greatest"],
                       max(ends.values()))
