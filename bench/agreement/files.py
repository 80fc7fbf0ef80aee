"""Records by chance, and how they are written: strict pairs of 1999, and the forms that relays
give them."""
import math
import struct

UNITS = ["kV", "V", "A", "kA", "MW"]
MISSING = None


class Record:
    """One record: its texts, its clock, the samples of its channels, the bits of its contacts."""

    def __init__(self, chance):
        self.frequency = chance.choice([50, 60, 50, 16.7])
        per_cycle = chance.choice([16, 20, 32, 40])
        rate = self.frequency * per_cycle
        self.rows = chance.randrange(3 * per_cycle, 9 * per_cycle)
        self.rates = [(rate, self.rows)]
        if chance.random() < 0.25:
            first = chance.randrange(1, self.rows)
            self.rates = [(chance.choice([rate, rate * 2, 1000]), first), (rate, self.rows)]
        self.trigger = chance.randrange(self.rows)
        self.day = chance.randrange(13, 28)
        self.channels = [self.channel(chance, n) for n in range(chance.randrange(0, 7))]
        self.contacts = [self.contact(chance, n)
                         for n in range(chance.randrange(0 if self.channels else 1, 20))]
        self.multiplier = chance.choice(["1", "1", "10", "0.5"])

    def channel(self, chance, n):
        phase = "ABC"[n % 3] if chance.random() < 0.7 else ""
        unit = UNITS[0 if n < 3 else 2] if chance.random() < 0.8 else chance.choice(UNITS)
        size, fault = chance.randrange(1, 9000), chance.randrange(self.rows)
        grown, lag = chance.choice([1, 1, 2.5, 0.1]), chance.random() * 6.28 - 2.0944 * (n % 3)
        step = self.frequency / self.rates[-1][0]
        samples = []
        for row in range(self.rows):
            now = size * (grown if fault <= row else 1)
            wave = now * math.sin(2 * math.pi * step * row + lag)
            samples.append(round(wave + chance.gauss(0, 2)))
        if chance.random() < 0.2:
            for _ in range(chance.randrange(1, 5)):
                samples[chance.randrange(self.rows)] = MISSING
        a = chance.choice(["1", "0.0357", "1.25E-3", "2", "-0.5"])
        b = chance.choice(["0", "0", "0.25", "-13"])
        return {"id": ("U" if n < 3 else "I") + ("ABC"[n % 3] if phase else "X%d" % n),
                "phase": phase, "unit": unit,
                "a": a, "b": b, "side": chance.choice("PS"), "samples": samples}

    def contact(self, chance, n):
        bits, now = [], chance.randrange(2)
        places = {chance.randrange(self.rows) for _ in range(chance.randrange(4))}
        for row in range(self.rows):
            now ^= row in places
            bits.append(now)
        return {"id": "D%d" % n, "normal": chance.randrange(2), "bits": bits}

    def seconds(self):
        """The seconds of each row after the first one, as an exact reader has them."""
        times, begin, base = [], 0, 0.0
        for rate, end in self.rates:
            times += [base + (row - begin) / rate for row in range(begin, end)]
            base, begin = base + (end - begin) / rate, end
        return times

    def instant(self, seconds, order="dmy"):
        micros = round(seconds * 1e6)
        day = "%02d/%02d" % ((self.day, 3) if order == "dmy" else (3, self.day))
        return "%s/2024,10:15:%02d.%06d" % (day, 20 + micros // 1000000, micros % 1000000)

    def stamps(self):
        return [round(seconds * 1e6 / float(self.multiplier)) for seconds in self.seconds()]


def head(record, kind, year="1999", endsamp=None, order="dmy", short=False, rates=True,
         samples=None):
    """The lines of a configuration file."""
    first = "Station %d,DFR" % record.day
    lines = [first + ("," + year if year != "1991" else "")]
    k, m = len(record.channels), len(record.contacts)
    lines.append("%d,%dA,%dD" % (k + m, k, m))
    for n, c in enumerate(record.channels, 1):
        known = [x for x in (samples or [c["samples"] for c in record.channels])[n - 1]
                 if x is not MISSING]
        span = "%d,%d" % (math.floor(min(known, default=0)), math.ceil(max(known, default=0)))
        line = "%d,%s,%s,Bay,%s,%s,%s,0,%s" % (n, c["id"], c["phase"], c["unit"], c["a"], c["b"],
                                               span)
        lines.append(line + ("" if year == "1991" else ",100,1," + c["side"]))
    for n, c in enumerate(record.contacts, 1):
        form = "%d,%s,%d" if year == "1991" or short else "%d,%s,,,%d"
        lines.append(form % (n, c["id"], c["normal"]))
    lines.append("%g" % record.frequency)
    if rates:
        lines.append("%d" % len(record.rates))
        lines += ["%.10g,%d" % (rate, min(end, record.rows) if endsamp is None
                                or end < record.rows else endsamp)
                  for rate, end in record.rates]
    else:
        lines += ["0", "0,%d" % record.rows]
    lines += [record.instant(0, order), record.instant(record.seconds()[record.trigger], order),
              kind]
    if year != "1991":
        lines.append(record.multiplier)
    if year == "2013":
        lines += ["0,0", "B,3"]
    return ("\r\n".join(lines) + "\r\n").encode()


def text_rows(record, samples, missing="99999"):
    """Data as text."""
    stamps, lines = record.stamps(), []
    for row in range(record.rows):
        cells = [str(row + 1), str(stamps[row])]
        cells += [missing if s[row] is MISSING else ("%s" % s[row]) for s in samples]
        cells += [str(c["bits"][row]) for c in record.contacts]
        lines.append(",".join(cells))
    return ("\r\n".join(lines) + "\r\n").encode()


def packed_rows(record, form, missing, order="<"):
    """Binary data; `form` is that of a sample."""
    out, stamps = bytearray(), record.stamps()
    for row in range(record.rows):
        out += struct.pack(order + "II", row + 1, stamps[row])
        for c in record.channels:
            x = c["samples"][row]
            out += struct.pack(order + form, missing if x is MISSING else x)
        bits = [c["bits"][row] for c in record.contacts]
        for at in range(0, len(bits), 16):
            out += struct.pack(order + "H",
                               sum(bit << i for i, bit in enumerate(bits[at:at + 16])))
    return bytes(out)


def plain_stamps(record):
    """The record with stamps in microseconds, since a file of 1991 has no multiplier."""
    record.multiplier = "1"
    return record


def whole(record):
    return [c["samples"] for c in record.channels]


def parts(record, divisor):
    return [[MISSING if x is MISSING else x / divisor for x in c["samples"]]
            for c in record.channels]


def single(cfg, kind, data):
    count = "" if kind == "ASCII" else ": %d" % len(data)
    between = b"--- file type: DAT %s%s ---\r\n" % (kind.encode(), count.encode())
    return b"--- file type: CFG ---\r\n" + cfg + between + data


FORMS = {
    "ascii": lambda r: {"cfg": head(r, "ASCII"), "dat": text_rows(r, whole(r))},
    "binary": lambda r: {"cfg": head(r, "BINARY"), "dat": packed_rows(r, "h", -32768)},
    "stamps": lambda r: {"cfg": head(r, "ASCII", rates=False), "dat": text_rows(r, whole(r))},
    "of-1991": lambda r: {"cfg": head(r, "ASCII", "1991"),
                          "dat": text_rows(plain_stamps(r), whole(r))},
    "of-2013": lambda r: {"cfg": head(r, "ASCII", "2013"), "dat": text_rows(r, whole(r), "")},
    "binary32": lambda r: {"cfg": head(r, "BINARY32", "2013"),
                           "dat": packed_rows(r, "i", -(1 << 31))},
    "float32": lambda r: {"cfg": head(r, "FLOAT32", "2013"),
                          "dat": packed_rows(r, "f", float("nan"))},
    "decimals": lambda r: {"cfg": head(r, "ASCII", samples=parts(r, 8)),
                           "dat": text_rows(r, parts(r, 8))},
    "big-endian": lambda r: {"cfg": head(r, "BINARY"), "dat": packed_rows(r, "h", -32768, ">")},
    "rows-fewer": lambda r: {"cfg": head(r, "ASCII", endsamp=r.rows + 7),
                             "dat": text_rows(r, whole(r))},
    "rows-more": lambda r: {"cfg": head(r, "BINARY", endsamp=r.rows - 1),
                            "dat": packed_rows(r, "h", -32768)},
    "month-first": lambda r: {"cfg": head(r, "ASCII", order="mdy"), "dat": text_rows(r, whole(r))},
    "three-fields": lambda r: {"cfg": head(r, "ASCII", short=True), "dat": text_rows(r, whole(r))},
    "marked": lambda r: {"cfg": b"\xef\xbb\xbf" + head(r, "ASCII"), "dat": text_rows(r, whole(r))},
    "single": lambda r: {"cff": single(head(r, "ASCII", "2013"), "ASCII",
                                       text_rows(r, whole(r), ""))},
    "single-binary": lambda r: {"cff": single(head(r, "BINARY", "2013"), "BINARY",
                                              packed_rows(r, "h", -32768))},
}
