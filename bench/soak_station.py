"""A converter for `bench/dfrd-soak` that drifts, pauses and delivers late, and the judge of what `dfrd` recorded of it.

    soak_station.py convert SEED SECONDS TRUTH     writes frames to standard output, and into TRUTH when its scans were taken

It makes 4,800 scans a second of three channels: a current with a fault every ten seconds, and the number of the scan in two parts. Its three
contacts are a breaker, a slow one, and one that chatters for half a second in ten. Its crystal is off by up to 40 ppm and wanders. Now and then
it makes no scans for 3 to 8 seconds, or takes them and delivers them up to two seconds late.
"""
import math
import os
import random
import re
import struct
import sys
import time
from bisect import bisect_right
from datetime import datetime, timezone

RATE, BLOCK, FAULT, PART = 4800, 48, 10, 30000
PRE, POST, LONGEST, LEVEL = 480, 720, 4800, 3000
SETUP = """station Northfield 110 kV
device Bay 3
analog IA,A,Line 3,A,0.5,0,0,-32767,32767,600,1,P
analog LOW,,,n,1,0,0,-32767,32767,1,1,P
analog HIGH,,,n,1,0,0,-32767,32767,1,1,P
status BREAKER OPEN,,Line 3,0
status SLOW,,,0
status CHATTER,,,0
freq 50
rate 4800
limits 480,720,4800,8
rules level 0 over 3000;level 0 under -3000
"""


def current_at(k):
    since = k % (FAULT * RATE) / RATE - FAULT / 2
    top = 8000 if 0 <= since < 0.06 else 0 if 0.06 <= since < 0.5 else 800
    return round(top * math.sin(2 * math.pi * 50 * k / RATE)), 0.06 <= since < 0.5


CYCLE = [current_at(k) for k in range(FAULT * RATE)]


def scan(k):
    """The values and the bits of scan k."""
    current, is_open = CYCLE[k % len(CYCLE)]
    at = k % len(CYCLE)
    chatter = 30000 <= at < 32400 and at // 3 % 2
    return (current, k % PART, k // PART), (int(is_open), k // 7211 % 2, int(chatter))


def frames_of(first):
    parts = []
    for k in range(first, first + BLOCK):
        values, bits = scan(k)
        parts.append(struct.pack("<3hH", *values, bits[0] | bits[1] << 1 | bits[2] << 2))
    return b"".join(parts)


def convert(seed, seconds, truth):
    """Each line of the truth has a scan's number, the microsecond in which it was taken, and how long no scans were made before it."""
    by = random.Random(seed)
    now = begin = time.time()
    ppm, held, until, pause = by.uniform(-40, 40), [], 0, 0
    rests = [20 + by.uniform(0, 10)]
    while rests[-1] + 70 < seconds:
        rests.append(rests[-1] + by.uniform(60, 70))
    lates = [r + 30 + by.uniform(0, 10) for r in rests]
    with open(truth, "w") as out:
        k = 0
        while now - begin < seconds:
            if rests and rests[0] < now - begin and not held:
                rests.pop(0)
                pause = by.uniform(3, 8)
                now += pause
            if lates and lates[0] < now - begin:
                lates.pop(0)
                until = now + by.uniform(0.2, 2)
            out.write(f"{k} {round(now * 1e6)} {round(pause * 1e6)}\n")
            pause = 0
            ppm = max(-40, min(40, ppm + by.uniform(-0.02, 0.02)))
            now += BLOCK / RATE / (1 + ppm / 1e6)
            held.append(frames_of(k))
            k += BLOCK
            time.sleep(max(0, now - time.time()))
            if until <= now:
                try:
                    sys.stdout.buffer.write(b"".join(held))
                    sys.stdout.buffer.flush()
                except BrokenPipeError:
                    os._exit(0 if not out.flush() else 1)
                held = []
                if k % RATE < BLOCK:
                    out.flush()


class Truth:
    """When scans were taken, and where none were made."""

    def __init__(self, path):
        self.firsts, self.instants, self.pauses = [], [], []
        for line in open(path):
            parts = line.split()
            if len(parts) == 3 and line.endswith("\n"):
                first, instant, pause = map(int, parts)
                self.firsts.append(first)
                self.instants.append(instant)
                if pause:
                    self.pauses.append((first, pause))

    def instant(self, k):
        i = bisect_right(self.firsts, k) - 1
        return self.instants[i] + (k - self.firsts[i]) * 1_000_000 // RATE

    def is_settled(self, k):
        """Whether a minute has passed since the start and since the last pause."""
        at = self.instant(k)
        starts = [self.instants[0]] + [self.instant(first) for first, _ in self.pauses if first <= k]
        return 60_000_000 <= at - max(starts)


class Places:
    """The steps of a recording: the converter's scans, and lost ones in the place of those that it did not make."""

    def __init__(self, lost):
        self.lost = sorted(lost)

    def scan_at(self, place):
        """The converter's scan in this place; None where it is a lost one."""
        before = 0
        for first, count in self.lost:
            if first <= place < first + count:
                return None
            before += count if first + count <= place else 0
        return place - before


def micros_of(text, form):
    return round(datetime.strptime(text, form).replace(tzinfo=timezone.utc).timestamp() * 1_000_000)


def wanted_records(places, count, manual):
    """The first, the triggering and the last place of each record that closes, by the rules and by hand."""
    found, opened = [], None
    for place in range(count):
        k = places.scan_at(place) if places.lost else place
        fires = k is not None and abs(CYCLE[k % len(CYCLE)][0]) >= LEVEL
        if fires or place in manual:
            if opened is None:
                opened = [max(0, place - PRE), place, place + POST]
            else:
                opened[2] = min(place + POST, opened[0] + LONGEST - 1)
        if opened is not None and opened[2] == place:
            found.append(tuple(opened))
            opened = None
    return found


class Judge:
    def __init__(self, truth, told, folder):
        self.truth, self.folder, self.wrong = Truth(truth), folder, []
        self.lines = [line for line in open(told).read().split("\n") if line]
        self.rows = self.records = self.late = self.changes = self.worst = 0
        lost = [re.search(r" lost (\d+) from (\d+) to (\d+) (\w+)", line) for line in self.lines]
        lost = [m.groups() for m in lost if m]
        for count, first, last, why in lost:
            if why != "silent" or int(last) - int(first) + 1 != int(count):
                self.wrong.append(f"lost {count} from {first} to {last} {why}")
        self.places = Places([(int(first), int(count)) for count, first, _, _ in lost])

    def end(self):
        """How many places there are by the line of the end; None after a kill."""
        m = self.lines and re.search(r" end scans (\d+) lost (\d+) records (\d+) left 0", self.lines[-1])
        return tuple(map(int, m.groups())) if m else None

    def judge_gaps(self, places, is_killed):
        """Each pause is one gap, at its place, and as long as it was."""
        taken = 0
        pauses = [p for p in self.truth.pauses if p[0] + sum(n for _, n in self.places.lost) < places]
        if is_killed: # (what came just before may not be told)
            pauses = pauses[:len(self.places.lost)]
        if len(pauses) != len(self.places.lost):
            self.wrong.append(f"{len(self.places.lost)} gaps, wanted {len(pauses)}")
        for (k, pause), (first, count) in zip(pauses, self.places.lost):
            off = count / RATE - pause / 1e6
            self.late = max(self.late, abs(off))
            if first != k + taken or abs(off) > 0.05:
                self.wrong.append(f"lost {count} from {first}, wanted {pause / 1e6 * RATE:.0f} from {k + taken}")
            taken += count

    def judge_date(self, k, micros, what):
        off = abs(micros - self.truth.instant(k)) / 1e6
        if self.truth.is_settled(k):
            self.worst = max(self.worst, off)
        if off > (0.002 if self.truth.is_settled(k) else 0.1):
            self.wrong.append(f"{what}: {off:.6f} s off")

    def judge_record(self, first, trigger, last, cfg, dat):
        text = open(os.path.join(self.folder, dat)).read()
        rows = [line.split(",") for line in text.removesuffix("\x1a").splitlines()]
        if len(rows) != last - first + 1:
            self.wrong.append(f"{dat} has {len(rows)} rows")
        empty, bits = 0, None
        for place, row in enumerate(rows, first):
            k = self.places.scan_at(place)
            if k is None:
                empty += 1
                values, bits = (99999,) * 3, tuple(map(int, row[5:]))
            else:
                values, bits = scan(k)
            if tuple(map(int, row[2:])) != values + bits:
                self.wrong.append(f"{dat}: place {place} is {row}, wanted scan {k}")
        header = open(os.path.join(self.folder, cfg[:-3] + "hdr")).read()
        if f"Scans lost, or without a sample: {empty}\n" not in header:
            self.wrong.append(f"{cfg}: the header doesn't say {empty} lost scans")
        lines = open(os.path.join(self.folder, cfg)).read().splitlines()
        k = self.places.scan_at(trigger)
        self.judge_date(k, micros_of(lines[-3], "%d/%m/%Y,%H:%M:%S.%f"), cfg)
        self.rows, self.records = self.rows + len(rows), self.records + 1

    def judge_records(self, places, is_killed):
        records = [re.search(r" record \d+ first (\d+) trigger (\d+) last (\d+) (?:rule \d|manual) (\S+\.cfg) (\S+\.dat)", line) for line in self.lines]
        cut = [m.groups()[3:] for m, line in zip(records, self.lines) if m and " cut" in line]
        records = [(*map(int, m.groups()[:3]), *m.groups()[3:]) for m, line in zip(records, self.lines) if m and " cut" not in line]
        manual = {int(m.group(1)) - 1 for line in self.lines if (m := re.search(r" operator at (\d+) trigger (?:opened|extended|at-limit)", line))}
        wanted = wanted_records(self.places, places, manual)
        if is_killed:
            wanted = wanted[:len(records)]
        if [r[:3] for r in records] != wanted:
            self.wrong.append(f"records {[r[:3] for r in records]}, wanted {wanted}")
        for record in records:
            self.judge_record(*record)
        return {name[:-4] for r in records for name in r[3:]} | {cfg[:-4] for cfg, _ in cut}

    def judge_events(self, lines, places, is_killed):
        """The two quiet contacts have a line for each change; of the one that chatters all changes are counted, and the last state is its own."""
        wanted, state, newest, changed = [], [0, 0, 0], -1, 0
        for place in range(places):
            k = self.places.scan_at(place) if self.places.lost else place
            if k is None:
                continue
            for n, bit in enumerate(scan(k)[1]):
                if bit != state[n]:
                    state[n] = bit
                    changed += n == 2
                    if n < 2:
                        wanted.append((place, n + 1, bit, 1, place - newest - 1))
            newest = place
        fields = [line.split(",") for line in lines]
        if any(len(f) != 10 or f[6] == "missing" for f in fields):
            self.wrong.append("changes are missing in the file of events, or a line is broken")
            fields = [f for f in fields if len(f) == 10 and f[6] != "missing"]
        told = [(int(f[9]), int(f[3]), int(f[5]), int(f[7]), int(f[8])) for f in fields]
        quiet = sorted(t for t in told if t[1] < 3)
        if is_killed:
            wanted = wanted[:len(quiet)]
        if quiet != wanted:
            self.wrong.append(f"{len(quiet)} events, wanted {len(wanted)}: {sorted(set(quiet) ^ set(wanted))[:4]}")
        counted = sum(t[3] for t in told if t[1] == 3)
        if not is_killed and counted != changed:
            self.wrong.append(f"{counted} changes of chatter, wanted {changed}")
        for f in fields:
            k = self.places.scan_at(int(f[9]))
            self.judge_date(k, micros_of(f[0], "%Y-%m-%d %H:%M:%S.%f"), ",".join(f))
        self.changes = len(told)


if __name__ == "__main__":
    convert(int(sys.argv[2]), float(sys.argv[3]), sys.argv[4])
