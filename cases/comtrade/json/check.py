"""What --json of show, list, events, check and detect prints, against a reader of the standard's layout: python3 check.py COMTRADE FOLDER STEM..
A whole number is one without a point; floats are read as Python reads them."""
import json
import re
import subprocess
import sys
from decimal import ROUND_DOWN, ROUND_HALF_UP, Context, Decimal

sys.path.insert(0, sys.path[0] + "/../../files")
from reader import Record  # noqa: E402


def number(text):
    """A number as JSON has it."""
    value = Decimal(text)
    whole = value == value.to_integral_value()
    return int(value) if whole else float(value)


def six_digits(value):
    return Context(prec=6, rounding=ROUND_HALF_UP).plus(Context(prec=30, rounding=ROUND_DOWN).plus(value))


def millis(nanos):
    """Milliseconds to the nearest microsecond, halves away from zero."""
    micros = (abs(nanos) + 500) // 1000
    return number(Decimal(micros if nanos >= 0 else -micros) / 1000)


def shown(text):
    """A text in which each byte outside 20 to 7E is in hexadecimal, as on a terminal."""
    return re.sub("[^ -~]", lambda it: f"\\x{ord(it[0]):02x}", text)


def analog(record, k):
    line = record.analog[k]
    a, b = Decimal(line[5]), Decimal(line[6])
    known = [(a * int(row[2 + k]) + b, i) for i, row in enumerate(record.rows) if row[2 + k] not in ("", "99999")]
    least = min(known, key=lambda it: (it[0], it[1]), default=None)
    greatest = max(known, key=lambda it: (it[0], -it[1]), default=None)
    found = {"n": k + 1, "id": shown(line[1]), "phase": line[2], "component": line[3], "unit": line[4], "a": number(a), "b": number(b),
             "min": int(line[8]), "max": int(line[9]), "primary": number(line[10]), "secondary": number(line[11]),
             "side": {"P": "primary", "S": "secondary"}[line[12].upper()]}
    for name, extreme in (("least", least), ("greatest", greatest)):
        found[name] = extreme and number(six_digits(extreme[0]))
        found[name + "_ms"] = extreme and millis(record.since[extreme[1]])
    return found | {"missing": len(record.rows) - len(known)}


def status(record, k):
    line, place = record.status[k], 2 + len(record.analog) + k
    bits = [int(row[place]) for row in record.rows]
    changes = [{"ms": millis(record.since[i]), "row": i + 1, "bit": bits[i]} for i in range(1, len(bits)) if bits[i] != bits[i - 1]]
    return {"n": k + 1, "id": line[1], "phase": line[2], "component": line[3], "normal": int(line[4]), "first": bits[0], "changes": changes}


def show(record, lines):
    at = 2 + len(record.analog) + len(record.status)
    rates = [{"rate": number(rate), "last_row": int(last)} for rate, last in (it.split(",") for it in lines[at + 2:at + 2 + int(lines[at + 1])])]
    return {"station": shown(record.station.strip()), "device": shown(record.device.strip()), "first_row": f"{record.first:%Y-%m-%d %H:%M:%S.%f}",
            "trigger": f"{record.trigger:%Y-%m-%d %H:%M:%S.%f}", "frequency": number(lines[at]), "rates": rates, "data": "ASCII",
            "rows": len(record.rows), "stamp_us": number(lines[at + 5 + max(len(rates), 1)]),
            "analog": [analog(record, k) for k in range(len(record.analog))], "status": [status(record, k) for k in range(len(record.status))]}


def current(whole):
    """The greatest of the currents by the nominal ones: its value, id, unit and nominal current."""
    best = None
    for line in whole["analog"]:
        size = {"A": 1, "kA": 1000}.get(line["unit"])
        nominal = line[line["side"]]
        for value in (line["least"], line["greatest"]):
            if size and nominal and value is not None and (best is None or abs(value) * size / nominal > best[0]):
                best = abs(value) * size / nominal, value, line["id"], line["unit"], nominal
    return dict(zip(("greatest_current", "current_id", "current_unit", "nominal"), best[1:] if best and best[0] else [None] * 4))


def listed(record, whole, stem):
    line = {"trigger": whole["trigger"], "ms": millis(record.since[-1] - record.since[0]), "rate": whole["rates"][0]["rate"]}
    line["channels"] = {"analog": len(whole["analog"]), "status": len(whole["status"])}
    line["changed"] = sum(bool(it["changes"]) for it in whole["status"])
    return line | current(whole) | {"station": whole["station"], "device": whole["device"], "record": stem}


def events(record, before=None):
    for instant, since, _, what in record.events():
        yield {"instant": f"{instant:%Y-%m-%d %H:%M:%S.%f}", "ms": millis(since),
               "since_before_ms": None if before is None else millis(since - before), "what": shown(what)}
        before = since


def said(*words):
    text = subprocess.run(words, capture_output=True, text=True).stdout
    assert text.endswith("\n") and text.count("\n") == 1, text
    return json.loads(text)


def equal(name, mine, theirs):
    """Compares also the types: 1 is not 1.0, and true is not 1."""
    if json.dumps(mine, sort_keys=True) == json.dumps(theirs, sort_keys=True):
        return print(f"{name}: the same")
    print(f"{name}: wanted {json.dumps(mine)}, printed {json.dumps(theirs)}")


def main(comtrade, stems):
    for stem in stems:
        name = stem.rsplit("/", 1)[-1]
        record, lines = Record(stem), open(stem + ".cfg", newline="").read().split("\r\n")
        whole = show(record, lines)
        equal(f"show {name}", whole, said(comtrade, "show", "--json", stem))
        equal(f"list {name}", {"records": [listed(record, whole, stem)], "faults": []}, said(comtrade, "list", "--json", stem))
        equal(f"events {name}", {"events": list(events(record)), "faults": []}, said(comtrade, "events", "--json", stem))


main(sys.argv[1], sys.argv[2:])
