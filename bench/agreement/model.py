"""A plain reading of COMTRADE files, made from the layouts of the standards alone: what no command
may
contradict in silence.

A pair of 1999 (C37.111-1999, clauses 5 and 6) is read with the leniences of docs/file-format.md.
Files
of 1991 and 2013 and single files are read where they have their revision's lines, and nothing
else.
Values are exact fractions, times are nanoseconds after the first row."""
import datetime
import math
import re
import struct
from fractions import Fraction

WHOLE = re.compile(rb"[+-]?[0-9]+")
DECIMAL = re.compile(rb"([+-]?)([0-9]*)(?:\.([0-9]*))?(?:[eE]([+-]?)([0-9]+))?")
DATE = re.compile(rb"([0-9]{1,2})/([0-9]{1,2})/([0-9]{4})")
DATE_1991 = re.compile(rb"([0-9]{1,2})/([0-9]{1,2})/([0-9]{2}|[0-9]{4})")
TIME = re.compile(rb"([0-9]{1,2}):([0-9]{1,2}):([0-9]{1,2})(?:\.([0-9]{1,6}))?")
# (blanks have no meaning, and are not told)
SECTION = re.compile(rb"--- +file +type: +([A-Z]{3})(?: +([A-Z0-9]+))?(?:: *([0-9]+))?"
                     rb" +---[ \t]*\r?\n", re.I)
EPOCH = datetime.date(1970, 1, 1)
TEN_DIGITS, BIG = 9999999999, 10 ** 36


class NotPlain(Exception):
    """The files aren't of the plain form; the text says what isn't."""


def need(holds, what):
    if not holds:
        raise NotPlain(what)


def lines_of(text):
    """The lines as lists of fields without the blanks around them; blank lines at the end are
    none."""
    lines = [line[:-1] if line.endswith(b"\r") else line for line in text.split(b"\n")]
    while lines and not lines[-1].strip(b" \t"):
        lines.pop()
    return [[field.strip(b" \t") for field in line.split(b",")] for line in lines]


def whole(field, low, high):
    need(WHOLE.fullmatch(field) and len(field) < 4000, "no whole number")
    value = int(field)
    need(abs(value) < BIG and low <= value <= high, "a whole number out of its range")
    return value


def decimal(field, most=80):
    """A decimal of at most 36 digits, 80 of them after the point."""
    found = DECIMAL.fullmatch(field)
    need(found and (found[2] or found[3]) and len(field) < 4000, "no decimal")
    digits, places = int(found[2] + (found[3] or b"") or b"0"), len(found[3] or b"")
    power = int(found[5] or b"0")
    if found[4] == b"-":
        places += power
    elif power <= places:
        places -= power
    else:
        need(digits == 0 or power < 200, "a decimal out of its range")
        digits, places = digits * 10 ** min(power - places, 300), 0
    need(digits < BIG and places <= most, "a decimal out of its range")
    return Fraction(-digits if found[1] == b"-" else digits, 10 ** places)


def free(field):
    return decimal(field) if field else Fraction(0)


def bit(field):
    return whole(field, 0, 1)


def instant(fields, revision, month_first):
    """Microseconds since 1970."""
    need(len(fields) == 2, "no instant")
    date, time = (DATE_1991 if revision == 1991
                  else DATE).fullmatch(fields[0]), TIME.fullmatch(fields[1])
    need(date and time, "no instant")
    one, other, year = int(date[1]), int(date[2]), int(date[3])
    if len(date[3]) == 2:
        year += 1900 if year >= 70 else 2000
    day, month = (other, one) if month_first else (one, other)
    try:
        days = (datetime.date(year, month, day) - EPOCH).days
    except ValueError:
        raise NotPlain("no date")
    hour, minute, second = int(time[1]), int(time[2]), int(time[3])
    need(hour < 24 and minute < 60 and second < 60, "no time of a day")
    return ((days * 24 + hour) * 60 + minute) * 60000000 + second * 1000000 + int((time[4]
            or b"").ljust(6, b"0"))


class Head:
    """What a configuration file says."""

    def __init__(self, cfg, month_first, keys):
        self.lines, self.at, self.keys = lines_of(cfg), 0, keys
        names = self.next()
        self.station, self.device = names[0], names[1] if len(names) > 1 else b""
        self.revision = 1991
        if len(names) != 2:
            need(len(names) == 3, "no line of names")
            self.revision = whole(names[2], 0, 9999)
            need(self.revision in (1991, 1999, 2013), "another revision")
        total, analog, status = self.next(3)
        need(analog[-1:] in (b"A", b"a") and status[-1:] in (b"D", b"d"), "no counts")
        k, m = whole(analog[:-1], 0, 999999), whole(status[:-1], 0, 999999)
        need(0 < k + m == whole(total, 0, 999999), "no counts")
        self.analog = [self.channel(n + 1) for n in range(k)]
        self.status = [self.contact(n + 1) for n in range(m)]
        self.frequency = free(self.next(1)[0])
        self.nrates = whole(self.next(1)[0], 0, 999)
        self.rates = []
        for _ in range(max(1, self.nrates)):
            rate, last = self.next(2)
            self.rates.append((decimal(rate), whole(last, 0, TEN_DIGITS)))
            need(len(self.rates) < 2 or self.rates[-2][1] <= self.rates[-1][1], "rates go back")
        self.first, self.trigger = (instant(self.next(), self.revision, month_first)
                                    for _ in range(2))
        self.kind = self.next(1)[0].upper()
        has_more = self.revision != 1991 or self.at < len(self.lines)
        self.timemult = decimal(self.next(1)[0]) if has_more else Fraction(1)
        if self.revision == 2013 or "lines-2013-dropped" in self.keys:
            # (a note quotes both lines)
            more = [fields for fields in self.lines[self.at:] if fields != [b""]]
            self.lines = self.lines[:self.at] + more[2:]
        need(self.at == len(self.lines), "a line too many")
        known = (b"ASCII", b"BINARY") + ((b"BINARY32", b"FLOAT32") if self.revision == 2013
                                         else ())
        need(self.kind in known, "another type of data")

    def next(self, count=None):
        need(self.at < len(self.lines), "a line is missing")
        self.at += 1
        fields = self.lines[self.at - 1]
        need(count in (None, len(fields)), "another number of fields")
        return fields

    def channel(self, n):
        fields = self.next()
        need(len(fields) in ((10, 13) if self.revision == 1991 else (13,)),
             "another number of fields")
        need(whole(fields[0], -BIG, BIG) == n, "another number of a channel")
        a, b = decimal(fields[5]), free(fields[6])
        free(fields[7])
        if self.revision != 2013 and "range-form" not in self.keys:
            whole(fields[8], -99999, 99999), whole(fields[9], -99999, 99999)
        if len(fields) > 10:
            free(fields[10]), free(fields[11])
            need(fields[12].upper() in (b"P", b"S"), "no side")
        return fields[1], fields[4], a, b

    def contact(self, n):
        fields = self.next()
        need(len(fields) in ((3, 5) if self.revision == 1991 else (5,)),
             "another number of fields")
        need(whole(fields[0], -BIG, BIG) == n, "another number of a channel")
        if fields[-1]:
            bit(fields[-1])
        return fields[1]


class Record:
    """A record: of each row its number, its stamp (or None), its samples (or None) and its
    bits."""

    def __init__(self, head, dat):
        self.head, self.rows = head, []
        last = head.rates[-1][1]
        if head.kind == b"ASCII":
            text = dat.rstrip(b"\r\n\0") if "padding" in head.keys else dat
            lines = lines_of(text.split(b"\x1a")[0])
            need(len(lines) == last, "another number of rows")
            # (99999 is the mark of a missing sample in a channel of whole numbers alone, before
            # 2013)
            k = len(head.analog)
            self.has_marks = [head.revision != 2013
                              and not any(re.search(rb"[.eE]", field) for fields in lines
                                          for field in fields[2 + c:3 + c])
                              for c in range(k)]
            self.rows = [self.text_row(fields) for fields in lines]
        else:
            form, self.missing = {b"BINARY": ("h", -32768), b"BINARY32": ("i", -(1 << 31)),
                                  b"FLOAT32": ("f", None)}[head.kind]
            words = (len(head.status) + 15) // 16
            row = struct.Struct("<II%d%s%dH" % (len(head.analog), form, words))
            need(len(dat) == last * row.size, "another size of the data")
            self.rows = [self.packed_row(row.unpack_from(dat, i * row.size)) for i in range(last)]

    def text_row(self, fields):
        k, m = len(self.head.analog), len(self.head.status)
        need(len(fields) == 2 + k + m, "another number of fields in a row")
        stamp = whole(fields[1], 0, TEN_DIGITS) if fields[1] else None
        number = whole(fields[0], 0, TEN_DIGITS)
        return number, stamp, [self.sample(x, c) for c, x in enumerate(fields[2:2 + k])], [bit(x)
                for x in fields[2 + k:]]

    def sample(self, field, channel):
        if not field:
            return None
        if self.head.revision == 2013 or "values-decimal" in self.head.keys:
            value = decimal(field, 400)
        else:
            most = BIG if "values-wide" in self.head.keys else 99999
            value = whole(field, -most, most)
        return None if value == 99999 and self.has_marks[channel] else value

    def packed_row(self, row):
        k = len(self.head.analog)
        stamp = None if row[1] == 0xFFFFFFFF else row[1]
        if self.missing is None:
            samples = [Fraction(x) if math.isfinite(x) else None for x in row[2:2 + k]]
        else:
            samples = [None if x == self.missing else x for x in row[2:2 + k]]
        bits = [row[2 + k + c // 16] >> c % 16 & 1 for c in range(len(self.head.status))]
        return row[0], stamp, samples, bits

    def by_rates(self, is_new):
        """The times by the rates; over a border leads the interval of the old rate, or of the new
        one."""
        times, begun, since = [], 0, 0
        for rate, last in self.head.rates:
            times += [begun + math.floor((row - since) * 10 ** 9 / rate)
                      for row in range(len(times), last)]
            end = last - 1 if is_new else last
            begun, since = begun + math.floor((end - since) * 10 ** 9 / rate), end
        return times

    def ways(self):
        """The times of the rows, in nanoseconds after the first: each way that the standard leaves
        open."""
        head = self.head
        if head.nrates == 0 or any(rate <= 0 for rate, _ in head.rates):
            return [[None if row[1] is None or head.timemult < 0
                     else math.floor(row[1] * head.timemult * 1000)
                     for row in self.rows]]
        ways = [self.by_rates(False)]
        if len(head.rates) > 1 and all(last > before for (_, before),
                                       (_, last) in zip(head.rates, head.rates[1:])):
            ways.append(self.by_rates(True))
        return ways

    def values(self, k):
        _, _, a, b = self.head.analog[k]
        return [None if row[2][k] is None else a * row[2][k] + b for row in self.rows]


def sections(single):
    """The CFG and DAT sections of a single file."""
    found = list(SECTION.finditer(single))
    need(found and found[0].start() == 0, "no single file")
    for one in found:
        if one[1].upper() == b"DAT":
            dat = single[one.end():]
            need(one[3] is None or int(one[3]) == len(dat), "another count of bytes")
            return single[found[0].end():found[1].start()], dat
    raise NotPlain("no section DAT")


def read(files, month_first=False, keys=frozenset()):
    """The record of a pair or a single file: its files by ending. Three keys of `import` allow
    what they
    tell of: samples with a point or many digits, and a channel's range in another form. `padding`
    allows
    what has no other meaning: NULs at the end, and blanks for the first digit of minutes and the
    like."""
    cfg, dat = sections(files["cff"]) if "cff" in files else (files["cfg"], files["dat"])
    if "padding" in keys:
        cfg = re.sub(rb"(?<=[:/,]) (?=[0-9][:/.])", b"0", cfg.rstrip(b"\r\n\0"))
    return Record(Head(cfg, month_first, keys), dat)
