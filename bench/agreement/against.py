"""Compares the rows of `csv` with what the model reads of the same files. Yields what differs, in
words."""
import re
from datetime import datetime, timedelta
from fractions import Fraction

import model
from compare import told

# Notes that tell what form the files have, and no repair.
QUIET = {"revision-1991", "revision-2013", "sides-absent", "years-2-digits", "dates-mdy",
         "dates-dmy", "dates-ambiguous", "lines-2013-dropped", "kind-binary32", "kind-float32",
         "values-wide", "values-decimal", "values-rounded", "cff", "inf-dropped", "hdr-dropped",
         "range-form", "texts-not-ascii", "text-long", "phase-long", "unit-empty", "a-zero",
         "trigger-before-first", "stamps-absent", "times-unknown", "status-spare-bits",
         "dat-after-end"}
# What import tells of texts that the views show as they are.
UNTOLD = {"bom", "texts-not-ascii", "text-long", "phase-long", "unit-empty", "ids-alike",
          "text-nul", "text-comma"}
# What import tells of and leaves as it is, so that it is told of what import wrote, too.
KEPT = {"a-zero", "trigger-before-first", "status-spare-bits"}
# What is told of samples that a written pair can't hold, and of their ranges: import writes
# 16 bits, the views show 32.
OF_SIZE = {"values-rounded", "values-wide", "range-form"}
EPOCH, MILLION = datetime(1970, 1, 1), 10 ** 6
PLAIN = re.compile(rb"[A-Za-z0-9 /_.-]*(?: \[[A-Za-z0-9 /_.-]*\])?")


def keys_of(said):
    """The keys of the notes on standard error."""
    return set(re.findall(r"^(?:[^\n]*: )?([a-z]+(?:-[a-z0-9]+)+|bom|cff): ", said, re.M))


def read_plainly(files, keys=frozenset()):
    """The records that the model may read; those of both orders of day and month, in a file of
    1991 or where a note tells of it."""
    found = []
    for month_first in (False, True):
        try:
            record = model.read(files, month_first, keys)
            if not month_first or record.head.revision == 1991 or "dates-mdy" in keys:
                found.append(record)
        except model.NotPlain:
            pass
        except KeyError:
            break
    return found


def step_of(record, k):
    """Half a step of a channel whose samples are rounded to 32 bits, and a little more: the step is
    a power of ten, of which at least 429 million are between the least and the greatest."""
    known = [row[2][k] for row in record.rows if row[2][k] is not None]
    span = max(known, default=0) - min(known, default=0)
    a, b = abs(record.head.analog[k][2]), abs(record.head.analog[k][3])
    size = max([abs(x) for x in known], default=0) * a + b
    return a * span / 858000000 + size / 10 ** 16


def with_values(record, rows, is_rounded):
    for k, cells in enumerate(rows.texts):
        beside = step_of(record, k) if is_rounded else 0
        for i, (cell, value) in enumerate(zip(cells, record.values(k))):
            if (cell == "") != (value is None):
                yield told("value of channel %d, row %d" % (k + 1, i + 1), value and float(value),
                           cell)
                break
            if value is None or Fraction(cell) == value:
                continue
            # (beyond 36 digits a value is rounded)
            if abs(Fraction(cell) - value) > max(beside, abs(value) / 10 ** 15):
                yield told("value of channel %d, row %d" % (k + 1, i + 1), float(value), cell)
                break


def with_times(record, rows):
    """The times, by each way that the standard leaves open; those of one way must all agree."""
    offset, first = (record.head.trigger - record.head.first) * 1000, None
    most = len(record.head.rates)  # (times are rounded down in each rate)
    for nanos in record.ways():
        wrong = None
        for i, (millis, time) in enumerate(zip(rows.ms_texts, nanos)):
            if (millis == "") != (time is None or abs(time - offset) >= 1 << 63):
                wrong = told("time of row %d" % (i + 1), time, millis)
            elif millis and abs(Fraction(millis) * MILLION - (time - offset)) > most:
                wrong = told("time of row %d" % (i + 1), (time - offset) / 1e6, millis)
            if wrong:
                break
        if not wrong:
            yield from with_instants(record, rows, nanos)
            return
        first = first or wrong
    yield first


def with_instants(record, rows, nanos):
    for i, (instant, time) in enumerate(zip(rows.instants, nanos)):
        if time is None or not re.match(r"[0-9]", instant):
            continue
        try:
            micros = record.head.first + round(Fraction(time, 1000))
            wanted = EPOCH + timedelta(microseconds=micros)
            found = datetime.strptime(instant, "%Y-%m-%d %H:%M:%S.%f")
        except (OverflowError, ValueError):
            yield told("instant of row %d" % (i + 1), record.head.first, instant)
            return
        if abs(found - wanted) > timedelta(microseconds=1):
            yield told("instant of row %d" % (i + 1), str(wanted), instant)
            return


def with_names(record, rows):
    """The names of the columns, where they are plain and differ."""
    wanted = [b"%s [%s]" % (one[0], one[1]) for one in record.head.analog] + record.head.status
    if len(set(wanted)) != len(wanted):
        return
    for name, found in zip(wanted, rows.names):
        if PLAIN.fullmatch(name) and name[:1] not in b"-" and name.decode() != found:
            yield told("name", name, found)


def with_model(record, rows, keys):
    """What differs between the model's record and the rows of `csv`."""
    head = record.head
    if (rows.count, len(rows.texts) + len(rows.bits)) != (len(record.rows),
                                                          len(head.analog) + len(head.status)):
        yield told("rows, columns", (len(record.rows), len(head.analog) + len(head.status)),
                   (rows.count, len(rows.names)))
        return
    yield from with_names(record, rows)
    yield from with_times(record, rows)
    yield from with_values(record, rows,
                           bool(keys & {"values-rounded", "values-decimal", "values-wide"}))
    for k, bits in enumerate(rows.bits):
        if bits != [row[3][k] for row in record.rows]:
            yield told("bits of contact %d" % (k + 1),
                       "".join(str(row[3][k]) for row in record.rows), "".join(map(str, bits)))
