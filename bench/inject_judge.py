"""Judges a run of `dfrd` whose system calls failed (see dfrd-inject).

It knows the converter and the rules of a record. It reads the printed lines, the files and the
trace of system calls by itself, and shares no code with the program.
"""

import os
import re
import time

RATE, PRE, POST, LONGEST = 4800, 100, 200, 600
START = 1_719_829_800_000_000  # 2024-07-01 10:30:00 UTC
LEVEL, RANGE = 3000, 10_000
SETUP = f"""station S
device D
analog A,,,A,1,0,0,-{RANGE},{RANGE},1,1,P
analog B,,,A,1,0,0,-{RANGE},{RANGE},1,1,P
status S,,,0
freq 50
rate {RATE}
limits {PRE},{POST},{LONGEST},4
rules level 0 over {LEVEL}
"""
OLD = "20000101T000000.000000-"  # the names of pairs of earlier recordings, without their number

END = re.compile(r"end scans (\d+) lost (\d+) records (\d+) left (\d+)")
RECORD = re.compile(r"record \d+ first (\d+) trigger (\d+) last (\d+) (?:manual|rule 0) (\S+)\.cfg")
UNWRITTEN = re.compile(r"unwritten \d+ first (\d+) trigger (\d+) last (\d+)")
OPERATOR = re.compile(r"operator at (\d+) trigger opened")
LOST = re.compile(r"lost (\d+) from \d+ to \d+ \S+")
REMOVED = re.compile(r" removed (\d+)")
TRACED = re.compile(r"(\w+)\((.*)\) += (-?\d+)")
RESUMED = re.compile(r"<\.\.\. \w+ resumed>(.*)")


def values(k, fires):
    """The readings and the bit of scan k; None if it is lost, as its second one is out of range."""
    if k % 400 == 150:
        return None
    return LEVEL + 1 if k in fires else k * 7 % 1000, k % 2000 - 1000, k // 50 % 2


def row_of(k, fires, came):
    """What a file has of scan k. A lost scan has no readings, and the bit of the scan before it."""
    given = values(k, fires) if k < came else None
    return given if given else (99_999, 99_999, row_of(k - 1, fires, came)[2])


def micros_at(k):
    """The microseconds of scan k after midnight."""
    return START % 86_400_000_000 + k * 1_000_000 // RATE


def name_of(number, k):
    """The name of a record that scan k triggers."""
    seconds, micros = divmod(START + k * 1_000_000 // RATE, 1_000_000)
    return time.strftime("%Y%m%dT%H%M%S", time.gmtime(seconds)) + f".{micros:06}-{number}"


def micros_in(text):
    """The microseconds after midnight of `dd/mm/yyyy,hh:mm:ss.ffffff`."""
    hours, minutes, seconds, micros = map(int, re.split("[:.]", text.split(",")[1]))
    return ((hours * 60 + minutes) * 60 + seconds) * 1_000_000 + micros


def content(path):
    with open(path, encoding="ascii", newline="") as file:
        return file.read()


def read_pair(path):
    """The instants of the first and of the triggering scan, and the rows, of an ASCII pair."""
    head, text = content(path + ".cfg").split("\r\n"), content(path + ".dat")
    if head[1] != "3,2A,1D" or head[6] != "1" or head[10:] != ["ASCII", "1", ""]:
        raise ValueError(f"the .cfg has {head}")
    if not text.endswith("\r\n\x1a"):
        raise ValueError("the .dat has no end")
    rows = [tuple(map(int, line.split(","))) for line in text[:-1].split("\r\n")[:-1]]
    if head[7] != f"{RATE},{len(rows)}" or [r[0] for r in rows] != list(range(1, len(rows) + 1)):
        raise ValueError(f"{len(rows)} rows, the .cfg has {head[7]}")
    return micros_in(head[8]), micros_in(head[9]), [r[2:] for r in rows]


def pair_fault(path, extent, fires, came):
    """What is wrong with the pair of a record, or None."""
    name = os.path.basename(path)
    try:
        first, trigger, rows = read_pair(path)
    except (OSError, ValueError, IndexError) as error:
        return f"{name} can't be read: {error}"
    if (first, trigger) != (micros_at(extent[0]), micros_at(extent[1])):
        return f"{name} has the instants {first} and {trigger}"
    wanted = [row_of(k, fires, came) for k in range(extent[0], extent[2] + 1)]
    if rows != wanted:
        at = next((i for i, (a, b) in enumerate(zip(rows, wanted)) if a != b), len(wanted))
        return f"{name} has {len(rows)} rows, row {at + 1} is {rows[at:at + 1]}"
    return None


def half_pair(folder):
    """A .cfg that has no .dat at one and the same moment, or None."""
    names = set(os.listdir(folder))
    for cfg in names:
        if cfg.endswith(".cfg") and cfg[:-4] + ".dat" not in names:
            path = f"{folder}/{cfg}"
            try:
                number = os.stat(path).st_ino
                is_half = not os.path.exists(path[:-4] + ".dat")
                if is_half and os.stat(path).st_ino == number:
                    return cfg
            except FileNotFoundError:
                pass
    return None


def leftovers(folder):
    """The files that belong to no whole pair."""
    names = set(os.listdir(folder))
    pairs = {n[:-4] for n in names if n.endswith(".cfg") and n[:-4] + ".dat" in names}
    return sorted(n for n in names if n[-4:] not in (".cfg", ".dat") or n[:-4] not in pairs)


def done_in(trace_path):
    """The calls of a trace that succeeded, as they ended: name and arguments."""
    begun = {}
    for line in open(trace_path, errors="replace"):
        thread, text = line.rstrip("\n").split(maxsplit=1)
        if text.endswith(" <unfinished ...>"):
            begun[thread] = text.removesuffix(" <unfinished ...>")
            continue
        rest = RESUMED.match(text)
        if rest:
            text = begun.pop(thread, "") + rest[1]
        match = TRACED.match(text)
        if match and not match[3].startswith("-"):
            yield match[1], match[2]


def not_durable(done, name, folder):
    """The first step that is missing for a pair to be on the disk under its names, or None."""
    path = f"{folder}/{name}"
    steps = []
    for part in (path + ".dat.part", path + ".cfg.part"):
        steps += [("write", part), ("fsync", part)]
    for part in (path + ".dat.part", path + ".cfg.part"):
        steps += [("rename", part), ("fsync", folder + ">")]
    for call, text in done:
        if steps and call == steps[0][0] and steps[0][1] in text:
            steps.pop(0)
    return f"{name} was told before {steps[0][0]} {steps[0][1]}" if steps else None


def sync_faults(trace_path, out, folder):
    """Records that were told before they were synced."""
    done = []
    for call, words in done_in(trace_path):
        done.append((call, words))
        if call == "write" and out + ">" in words:
            for match in RECORD.finditer(words):
                yield not_durable(done, match[4], folder)


def scan_faults(text, handed, fires):
    """Scans that were handed over and are neither in `end` nor told as lost."""
    end = END.search(text)
    if not end:
        return ["no line `end`"]
    scans, lost, records, _ = map(int, end.groups())
    told = sum(int(m[1]) for m in LOST.finditer(text))
    real = sum(values(k, fires) is None for k in range(scans))
    faults = []
    if scans != handed and not ("input broken" in text and scans < handed):
        faults.append(f"{handed} scans came, `end` has {scans}")
    if lost != told or lost != real:
        faults.append(f"{real} scans were lost, {told} were told, `end` has {lost}")
    if records != len(RECORD.findall(text)):
        faults.append(f"`end` has {records} records")
    return faults


def wanted_records(text, fires, came):
    """The first, the triggering and the last scan of each record."""
    triggers = [k for k in sorted(fires) if k < came]
    triggers += [int(m[1]) - 1 for m in OPERATOR.finditer(text)]
    return [(max(0, k - PRE), k, k + POST) for k in triggers]


def record_faults(text, folder, fires, came):
    """Records that are missing, untold or wrong. Those that were removed are left out."""
    told = {tuple(map(int, m.groups()[:3])): m[4] for m in RECORD.finditer(text)}
    given_up = {tuple(map(int, m.groups())) for m in UNWRITTEN.finditer(text)}
    for extent in wanted_records(text, fires, came):
        name = told.pop(extent, None)
        if not name and extent not in given_up:
            yield f"no line of the record {extent}"
        elif name and os.path.exists(f"{folder}/{name}.cfg"):
            yield pair_fault(f"{folder}/{name}", extent, fires, came)
    yield from (f"{name} is a record that no scan opened" for name in told.values())


def removed(text, folder):
    """The pairs of this recording and of earlier ones, and those of them that are gone."""
    names = [OLD + "1"] + [m[4] for m in RECORD.finditer(text)]
    return names, [name for name in names if not os.path.exists(f"{folder}/{name}.cfg")]


def younger_removed(text, folder):
    """The pairs that are gone, though an older one is left."""
    names, gone = removed(text, folder)
    return gone if gone != names[: len(gone)] else []


def removed_faults(text, errors, folder):
    """Pairs that were removed without a word, or in place of older ones without a reason."""
    names, gone = removed(text, folder)
    told = sum(int(m[1]) for m in REMOVED.finditer(text))
    if not told <= len(gone) <= told + errors.count("no space left for a new pair"):
        yield f"{gone} are gone, `removed` has {told}"
    if younger_removed(text, folder) and "cannot be removed" not in errors:
        yield f"{gone} are gone, though an older one is left"
    if names[-1] in gone:
        yield f"{names[-1]} is gone, the newest"


def status_fault(text, errors, status):
    is_whole = " start " in text and END.search(text)
    is_bad = not is_whole or re.search("input broken|unwritten|unfinished", text)
    if status != (1 if is_bad else 0):
        return f"the status is {status}"
    if not is_whole and "dfrd: " not in errors:
        return "it ended early without a word"
    return None
