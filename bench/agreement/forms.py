"""More forms of records by chance: containers, encodings, sizes, clocks, and lines as the field
writes them."""
import gzip
import io
import math
import zipfile

from files import FORMS, MISSING, Record, head, packed_rows, parts
from files import plain_stamps, single, text_rows, whole

NAMES = ["Ток фазы", "珠海母线", "Überstrom", "Île Nº", "電流", "ραφή", "I⁄>"]


def ascii_pair(r, **more):
    return {"cfg": head(r, "ASCII", **more), "dat": text_rows(r, whole(r))}


def binary_pair(r, **more):
    return {"cfg": head(r, "BINARY", **more), "dat": packed_rows(r, "h", -32768)}


def zipped(files, method, folder=""):
    made = io.BytesIO()
    with zipfile.ZipFile(made, "w", method) as archive:
        for ending, content in sorted(files.items()):
            archive.writestr(folder + "rec1." + ending, content)
    return made.getvalue()


def named(r, chance, encoding):
    """The texts of a record in an encoding."""
    for n, c in enumerate(r.channels):
        word = chance.choice(NAMES).encode(encoding, "ignore").decode(encoding)
        c["id"] = "%s %d" % (word.strip(), n)
    cfg = head(r, "ASCII").decode()
    return {"cfg": cfg.encode(encoding), "dat": text_rows(r, whole(r))}


def of_size(r, chance, channels, contacts):
    r.channels = [r.channel(chance, n) for n in range(channels)]
    r.contacts = [r.contact(chance, n) for n in range(contacts)]
    return r


def shorter(r, rows):
    """The first rows of a record."""
    r.rates = [(rate, min(end, rows)) for k, (rate, end) in enumerate(r.rates) if k == 0
               or r.rates[k - 1][1] < rows]
    r.rows, r.trigger = rows, min(r.trigger, rows - 1)
    for c in r.channels:
        c["samples"] = c["samples"][:rows]
    for c in r.contacts:
        c["bits"] = c["bits"][:rows]
    return r


def of_rates(r, chance, is_new):
    """Several rates; the stamps have the old or the new interval at their borders."""
    ends = sorted({chance.randrange(1, r.rows) for _ in range(chance.randrange(1, 5))}) + [r.rows]
    base = r.rates[-1][0]
    r.rates = [(chance.choice([base, base / 2, base * 3, 1000, 600.5, 50]), end) for end in ends]
    r.multiplier = "1"
    if not is_new:
        return r
    times, now = [0.0], 0.0
    for row in range(1, r.rows):
        now += 1 / next(rate for rate, end in r.rates if row < end)
        times.append(now)
    r.stamps = lambda: [round(t * 1e6) for t in times]
    return r


def spelled(r, chance):
    """Every leniency of the exact reader: blanks, letters, signs, zeros in front, no end mark."""
    cfg, dat = head(r, "ascii").decode(), text_rows(r, whole(r)).decode()
    cfg = "\n".join(line.replace(",", chance.choice([",", " ,", ",\t", " , "]))
                    for line in cfg.split("\r\n"))
    rows = [[chance.choice(["%s", " %s", "%s\t", "+%s", "00%s"]) % x if x.isdigit() else x
             for x in row.split(",")]
            for row in dat.split("\r\n") if row]
    end = chance.choice(["", "\n", "\r\n", "\x1a", "\r\n\x1a and more"])
    return {"cfg": cfg.encode(), "dat": ("\n".join(",".join(row) for row in rows) + end).encode()}


def lost(r, chance):
    """Rows whose samples are all missing."""
    for _ in range(3):
        first = chance.randrange(r.rows)
        for row in range(first, min(r.rows, first + chance.randrange(1, 9))):
            for c in r.channels:
                c["samples"][row] = MISSING
    return binary_pair(r)


def never(r, chance):
    """A channel without a reading, and one that is constant."""
    for c in r.channels[:1]:
        c["samples"] = [MISSING] * r.rows
    for c in r.channels[1:2]:
        c["samples"] = [chance.choice([0, 7, -32767])] * r.rows
    return ascii_pair(r)


def flat(r, chance):
    """Samples at the limits of BINARY data."""
    for c in r.channels:
        c["samples"] = [chance.choice([-32767, 32767, 0, 1, -1, MISSING]) for _ in range(r.rows)]
    return binary_pair(r)


def limits(r, chance):
    """Samples at the limits of ASCII data, and factors with many digits."""
    for c in r.channels:
        c["samples"] = [chance.choice([-99999, 99998, 0, 1, -1, 32768, MISSING])
                        for _ in range(r.rows)]
        c["a"] = chance.choice(["0.000123456789012345", "1E-9", "123456.789", "-1", "7.0E+5"])
        c["b"] = chance.choice(["0", "1E10", "-0.000001", "99.5"])
    return ascii_pair(r)


def gaps(r, chance):
    """Rows that aren't there, by number and stamp."""
    pair = ascii_pair(r)
    lines = pair["dat"].split(b"\r\n")[:-1]
    first = chance.randrange(2, r.rows - 3)
    del lines[first:first + chance.randrange(1, 4)]
    return {"cfg": pair["cfg"], "dat": b"\r\n".join(lines) + b"\r\n"}


def around(r, chance):
    """A trigger before the first row, or after the last."""
    cfg = head(r, "ASCII").split(b"\r\n")
    at = len(cfg) - 4
    cfg[at] = (r.instant(chance.choice([30, 3])).encode() if chance.random() < 0.5
               else cfg[at - 1].replace(b"10:15", b"10:14"))
    return {"cfg": b"\r\n".join(cfg), "dat": text_rows(r, whole(r))}


def year_end(r, chance):
    pair = ascii_pair(r)
    day = b"%02d/03/2024" % r.day
    return {"cfg": pair["cfg"].replace(day + b",10:15:2",
            chance.choice([b"31/12/1999,23:59:5", b"01/01/0001,00:00:0"])), "dat": pair["dat"]}


def floats(r, chance):
    """Decimals that no steps of 16 bits hold."""
    for c in r.channels:
        c["samples"] = [MISSING if x is MISSING else x * math.pi / 7 for x in c["samples"]]
    return {"cfg": head(r, "FLOAT32", "2013"), "dat": packed_rows(r, "f", float("nan"))}


def exponents(r, chance):
    made = [[MISSING if x is MISSING else "%.6E" % (x / 7) for x in c["samples"]]
            for c in r.channels]
    numbers = [[MISSING if x is MISSING else float(x) for x in samples] for samples in made]
    return {"cfg": head(r, "ASCII", samples=numbers), "dat": text_rows(r, made)}


def wide(r, chance):
    for c in r.channels:
        c["samples"] = [MISSING if x is MISSING else x * 70001 for x in c["samples"]]
    return {"cfg": head(r, "BINARY32", "2013"), "dat": packed_rows(r, "i", -(1 << 31))}


def unsigned(r, chance):
    for c in r.channels:
        c["samples"] = [40000 if x is MISSING else abs(x) * 5 % 65535 for x in c["samples"]]
    return {"cfg": head(r, "BINARY"), "dat": packed_rows(r, "H", 0)}


def semicolons(r, chance):
    pair = ascii_pair(r)
    return {ending: text.replace(b",", b";") for ending, text in pair.items()}


def single_of(r, kind, form, missing):
    return {"cff": single(head(r, kind, "2013"), kind, packed_rows(r, form, missing))}


MORE = {
    "utf-8": lambda r, c: named(r, c, "utf-8"),
    "utf-16": lambda r,
    c: {e: x.decode().encode("utf-16") if e == "cfg" else x for e,
        x in named(r, c, "utf-8").items()},
    "gbk": lambda r, c: named(r, c, "gbk"),
    "contacts": lambda r, c: ascii_pair(of_size(r, c, 0, c.randrange(1, 40))),
    "channels": lambda r, c: binary_pair(of_size(r, c, c.randrange(1, 9), 0)),
    "many": lambda r, c: binary_pair(of_size(shorter(r, min(r.rows, 60)), c, 64, 130)),
    "one-row": lambda r, c: ascii_pair(shorter(r, 1)),
    "two-rows": lambda r, c: binary_pair(shorter(r, 2)),
    "rates-old": lambda r, c: ascii_pair(of_rates(r, c, False)),
    "rates-new": lambda r, c: binary_pair(of_rates(r, c, True)),
    "lenient": spelled,
    "lost": lost,
    "never": never,
    "flat": flat,
    "limits": limits,
    "gaps": gaps,
    "trigger": around,
    "year-end": year_end,
    "floats": floats,
    "exponents": exponents,
    "wide": wide,
    "unsigned": unsigned,
    "semicolons": semicolons,
    "crcr": lambda r, c: {e: x.replace(b"\r\n", b"\r\r\n") for e, x in ascii_pair(r).items()},
    "cr": lambda r, c: {e: x.replace(b"\r\n", b"\r") for e, x in ascii_pair(r).items()},
    "binary-1991": lambda r,
    c: {"cfg": head(r, "BINARY", "1991"), "dat": packed_rows(plain_stamps(r), "h", -32768)},
    "months-1991": lambda r,
    c: {"cfg": head(r, "ASCII", "1991", order="mdy"), "dat": text_rows(plain_stamps(r), whole(r))},
    "decimals-2013": lambda r,
    c: {"cfg": head(r, "ASCII", "2013", samples=parts(r, 4)),
        "dat": text_rows(r, parts(r, 4), "")},
    "single-float32": lambda r, c: single_of(r, "FLOAT32", "f", float("nan")),
    "single-binary32": lambda r, c: single_of(r, "BINARY32", "i", -(1 << 31)),
    "zip-stored": lambda r, c: {"zip": zipped(ascii_pair(r), zipfile.ZIP_STORED)},
    "cfz": lambda r, c: {"cfz": zipped(binary_pair(r), zipfile.ZIP_DEFLATED, "storm/")},
    "zip-single": lambda r,
    c: {"zip": zipped(single_of(r, "BINARY", "h", -32768), zipfile.ZIP_DEFLATED)},
    "dat-gz": lambda r,
    c: {"cfg": head(r, "BINARY"), "dat.gz": gzip.compress(packed_rows(r, "h", -32768))},
    "both-gz": lambda r, c: {e + ".gz": gzip.compress(x) for e, x in ascii_pair(r).items()},
    "cff-gz": lambda r,
    c: {"cff.gz": gzip.compress(single_of(r, "FLOAT32", "f", float("inf"))["cff"])},
}


KNOWN = sorted(FORMS) + sorted(MORE)


def made(chance, form, most=None):
    """The files of a record by chance in a form, by their endings; at most so many rows."""
    r = Record(chance)
    if most and r.rows > most:
        r = shorter(r, chance.randrange(most // 2, most + 1))
    return MORE[form](r, chance) if form in MORE else FORMS[form](r)
