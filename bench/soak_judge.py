"""Judges what `benchmarks soak` printed, from the definitions of the recorder alone.

The script says what was given; the transcript what each caller saw and what the end left. The recorder here keeps every scan and
every interval for ever and cuts records out by their places: it has no ring, no shelf and no open record.
"""

import datetime
import re
import struct
import zlib

MASK = (1 << 64) - 1
CLOCK_END = 253_402_300_799_999_999


class Difference(Exception):
    pass


def differ(what, *more):
    raise Difference(" ".join([what] + [repr(m) for m in more]))


def need(holds, what, *more):
    if not holds:
        differ(what, *more)


# What a script says. A sample is None where it was lost, else (readings, bits); a reading is None where it is missing.


class Script:
    def __init__(self, text):
        self.analog, self.status, self.first_rules = [], [], []
        self.unshared = False
        self.samples, self.calls = [], []
        is_set = False
        for number, line in enumerate(text.split("\n"), 1):
            word, _, rest = line.partition(" ")
            if is_set:
                self.command(number, word, rest)
            elif word == "go":
                is_set = True
            else:
                self.setting(word, rest)

    def setting(self, word, rest):
        if word in ("station", "device", "freq"):
            setattr(self, word, rest)
        elif word in ("rate", "start"):
            setattr(self, word, int(rest))
        elif word == "analog":
            fields = rest.split(",")
            self.analog.append((int(fields[7]), int(fields[8]), fields))
        elif word == "status":
            fields = rest.split(",")
            self.status.append((fields[3] == "1", fields))
        elif word == "limits":
            fields = rest.split(",")
            self.pre, self.post, self.longest, self.shelf = map(int, fields[:4])
            self.unshared = fields[4:] == ["unshared"]
        elif word == "rules":
            self.first_rules = rules_of(rest)

    def command(self, number, word, rest):
        if word == "scan":
            readings, _, bits = rest.partition("/")
            self.samples.append((
                tuple(None if x == "*" else int(x) for x in readings.split(",") if x),
                tuple(x == "1" for x in bits.split(",") if x),
            ))
        elif word == "lost":
            self.samples.append(None)
        elif word in ("trigger", "take"):
            self.calls.append((len(self.samples), word, None))
        elif word == "rules":
            self.calls.append((len(self.samples), number, rules_of(rest)))


def rules_of(text):
    rules = []
    for rule in text.split(";"):
        words = rule.split()
        if words and words[0] == "level":
            rules.append(("level", int(words[1]), words[2] == "over", int(words[3])))
        elif words:
            rules.append(("edge", int(words[1]), words[2] == "rise"))
    return rules


# The recorder.


class Recorder:
    """A history: all accepted scans, all intervals, how many were taken."""

    def __init__(self, script):
        self.script = script
        self.scans = []
        self.ivs = []
        self.closed = 0
        self.taken = 0
        self.rules = script.first_rules
        self.last_number = self.numbers_till_the_end()

    def numbers_till_the_end(self):
        """How many scans have an instant: the numbers k with start + floor(k * 10^6 / rate) <= CLOCK_END."""
        room = CLOCK_END - self.script.start
        return ((room + 1) * self.script.rate - 1) // 1_000_000 + 1

    def is_accepted(self, sample):
        readings, bits = sample
        script = self.script
        if len(readings) != len(script.analog) or len(bits) != len(script.status):
            return False
        for x, (low, high, _) in zip(readings, script.analog):
            if x is not None and not low <= x <= high:
                return False
        return len(self.scans) < self.last_number

    def fires(self, sample):
        for i, rule in enumerate(self.rules):
            if rule[0] == "level":
                x = sample[0][rule[1]]
                if x is not None and (x >= rule[3] if rule[2] else x <= rule[3]):
                    return i
            elif self.scans:
                before, now = self.scans[-1][1][rule[1]], sample[1][rule[1]]
                if now != before and now == rule[2]:
                    return i
        return None

    def hit(self, k, is_open, cause):
        """A trigger at place k; the answer."""
        script = self.script
        count = len(self.ivs)
        if is_open:
            newest = self.ivs[-1]
            end = newest[0] + script.longest - 1
            newest[2] = min(k + script.post, end)
            return f"AtLimit({count})" if k + script.post > end else f"Extended({count})"
        if self.closed - self.taken == script.shelf:
            return "ShelfFull"
        first = max(0, k - script.pre)
        if script.unshared and self.ivs:
            first = max(first, self.ivs[-1][2] + 1)
        self.ivs.append([first, k, k + script.post, cause])
        return f"Opened({count + 1})"

    def is_open(self):
        return bool(self.ivs) and self.ivs[-1][2] >= len(self.scans)

    def count_closed(self):
        self.closed = len(self.ivs) - self.is_open()

    def scan(self, sample):
        """A step with a sample, which is None where it was lost. Whether it was accepted."""
        k = len(self.scans)
        if sample is None:
            if k >= self.last_number:
                return False
            script = self.script
            bits = self.scans[-1][1] if self.scans else tuple(normal for normal, _ in script.status)
            self.scans.append(((None,) * len(script.analog), bits))
        else:
            if not self.is_accepted(sample):
                return False
            rule = self.fires(sample) if self.rules else None
            if rule is not None:
                self.hit(k, self.is_open(), f"Rule({rule})")
            self.scans.append(sample)
        if self.ivs and self.ivs[-1][2] == k:
            self.closed = len(self.ivs)
        return True

    def trigger(self):
        n = len(self.scans)
        if n == 0:
            return "Err(NoScan)"
        is_open = self.is_open()
        if not is_open and self.script.unshared and self.ivs and n - 1 <= self.ivs[-1][2]:
            return "Err(Covered)"
        answer = self.hit(n - 1, is_open, "Manual")
        return "Err(ShelfFull)" if answer == "ShelfFull" else f"Ok({answer})"

    def take(self):
        """The number of the record that is taken, from 0, or None."""
        if self.taken < self.closed:
            self.taken += 1
            return self.taken - 1
        return None

    def set_rules(self, rules):
        for rule in rules:
            channels = self.script.analog if rule[0] == "level" else self.script.status
            if rule[1] >= len(channels):
                return False
        self.rules = rules
        return True

    def extent(self, i):
        first, trigger, last, cause = self.ivs[i]
        return (f"Extent {{ number: {i + 1}, first: {first}, trigger: {trigger}, last: {last}, "
                f"cause: {cause} }}")

    def record(self, i):
        return self.scans[self.ivs[i][0]:self.ivs[i][2] + 1]

    def held(self):
        n = len(self.scans)
        held = min(n, self.script.pre + 1)
        for i in range(self.taken, self.closed):
            held += len(self.record(i))
        if self.is_open():
            held += max(0, n - self.ivs[-1][0])
        return held


def fold(total, x):
    return (total * 1_000_003 + x) & MASK


sums = {}


def scan_sum(sample):
    total = sums.get(sample)
    if total is None:
        total = 0
        for x in sample[0]:
            total = fold(total, 99_999) if x is None else fold(fold(total, abs(x)), int(x < 0))
        for bit in sample[1]:
            total = fold(total, 7 + bit)
        sums[sample] = total
    return total


def record_sum(scans):
    total = 0
    for sample in scans:
        total = (total * 1_000_003 + scan_sum(sample)) & MASK
    return total


# The files of a record, IEEE Std C37.111-1999.


def instant_text(instant):
    days, rest = divmod(instant, 86_400_000_000)
    day = datetime.date(1970, 1, 1) + datetime.timedelta(days=days)
    seconds, micros = divmod(rest, 1_000_000)
    return (f"{day.day:02}/{day.month:02}/{day.year:04},{seconds // 3600:02}:{seconds // 60 % 60:02}:"
            f"{seconds % 60:02}.{micros:06}")


def cfg_of(script, iv, kind):
    first, trigger, last = iv[:3]
    count = (len(script.analog), len(script.status))
    lines = [f"{script.station},{script.device},1999", f"{sum(count)},{count[0]}A,{count[1]}D"]
    lines += [f"{n}," + ",".join(fields) for n, (_, _, fields) in enumerate(script.analog, 1)]
    lines += [f"{n}," + ",".join(fields) for n, (_, fields) in enumerate(script.status, 1)]
    lines += [script.freq, "1", f"{script.rate},{last - first + 1}"]
    lines += [instant_text(script.start + k * 1_000_000 // script.rate) for k in (first, trigger)]
    lines += [kind, "1"]
    return "".join(line + "\r\n" for line in lines).encode()


def ascii_of(script, scans):
    rows = []
    for i, (readings, bits) in enumerate(scans):
        row = [i + 1, i * 1_000_000 // script.rate]
        row += [99_999 if x is None else x for x in readings] + [int(bit) for bit in bits]
        rows.append(",".join(map(str, row)) + "\r\n")
    return "".join(rows).encode() + b"\x1a"


def binary_of(script, scans):
    rows = []
    for i, (readings, bits) in enumerate(scans):
        row = struct.pack("<II", i + 1, i * 1_000_000 // script.rate)
        row += b"".join(struct.pack("<h", -32_768 if x is None else x) for x in readings)
        for at in range(0, len(bits), 16):
            group = sum(1 << j for j, bit in enumerate(bits[at:at + 16]) if bit)
            row += struct.pack("<H", group)
        rows.append(row)
    return b"".join(rows)


# What the program prints.


def rule_text(rule):
    if rule[0] == "level":
        return f"level {rule[1]} {'over' if rule[2] else 'under'} {rule[3]};"
    return f"edge {rule[1]} {'rise' if rule[2] else 'fall'};"


def rules_text(rules):
    return "[" + "".join(map(rule_text, rules)) + "]"


PUMP = re.compile(r"Pump\((\d+), Pumped \{ scans: (\d+), stopped: (\w+) \}\)$")
RULES = re.compile(r"Rules\((\d+), (.*)\)$")
TAKEN = re.compile(r"Taken\((Extent \{.*\}), (\d+)\)$")
LOG = re.compile(r"log (\d+) (\d+) (\w+)\((.*)\)( \[.*\])?$")


class Lines:
    """The lines of a transcript, in order."""

    def __init__(self, text):
        self.lines = text.rstrip("\n").split("\n")
        self.at = 0

    def next(self, start):
        need(self.at < len(self.lines), "ends before", start)
        line = self.lines[self.at]
        need(line.startswith(start), "the line is no", start, line)
        self.at += 1
        return line[len(start):]

    def while_(self, start):
        while self.at < len(self.lines) and self.lines[self.at].startswith(start):
            self.at += 1
            yield self.lines[self.at - 1]


class Seen:
    """Counts over many runs."""

    NAMES = ["runs", "scan steps", "of them lost", "left in lanes", "calls", "records taken", "refused allocations",
             "ends first refused", "feeds that failed", "sinks that failed"]

    def __init__(self):
        self.counts = dict.fromkeys(self.NAMES, 0)

    def add(self, name, n=1):
        self.counts[name] += n


# A recorder that threads share.


def offered_steps(script, line, lane):
    """The steps of what the source offered: the lost ones before each scan that the lane took. And the number lost after the last."""
    words = line.split()
    full = int(words[0].rstrip(":"))
    steps, at, lost, taken, seen_full = [], 0, 0, 0, 0
    for word in words[1:]:
        if word[0] == "l":
            lost += 1
            need(int(word[1:]) == lost, "a loss was answered", word, lost)
            need(at < len(script.samples), "a loss of no sample")
            if script.samples[at] is not None:
                seen_full += 1
                need(taken >= lane, "one of the first offers was refused", taken, lane)
            at += 1
            continue
        for _ in range(int(word)):
            need(at < len(script.samples) and script.samples[at] is not None, "no scan was given at", at)
            steps += [None] * lost
            steps.append(script.samples[at])
            lost = 0
            taken += 1
            at += 1
    need(at == len(script.samples), "not each sample was offered or lost", at)
    need(full >= seen_full, "the lane was full less often than scans were lost", full)
    need(full == 0 or taken >= lane, "one of the first offers was refused", taken, lane)
    return steps, lost


def check_left(lines, steps):
    """What was offered and not stepped: each scan with the lost ones before it."""
    wanted, lost = [], 0
    for sample in steps:
        if sample is None:
            lost += 1
        else:
            wanted.append(f"left {lost} {scan_sum(sample)}")
            lost = 0
    got = list(lines.while_("left "))
    if got != wanted:
        differ("left", [pair for pair in zip(got, wanted) if pair[0] != pair[1]][:1], len(got), len(wanted))


class Entry:
    def __init__(self, line):
        match = LOG.match(line)
        need(match, "no entry", line)
        self.line = line
        self.seat, self.at = int(match[1]), int(match[2])
        self.kind, self.reply, self.rules = match[3], match[4], match[5]


def read_log(lines):
    return [Entry(line) for line in lines.while_("log ")]


def weave(recorder, steps, log, rules_in_order=None):
    """Makes the one list of steps, and compares each reply. The numbers of the records in the order in which they were taken, and
    how many steps were accepted."""
    at = accepted = 0
    taken = []
    scan = recorder.scan
    for entry in log:
        need(at <= entry.at <= len(steps), "the place falls or is too far", at, entry.line)
        for sample in steps[at:entry.at]:
            accepted += scan(sample)
        at = entry.at
        if entry.kind == "Trigger":
            wanted = recorder.trigger()
        elif entry.kind == "Take":
            i = recorder.take()
            wanted = "None" if i is None else f"Some({recorder.extent(i)})"
            if i is not None:
                taken.append(i)
        else:
            rules = entry.given_rules
            need(entry.rules == " " + rules_text(rules), "the entry has other rules", entry.line, rules_text(rules))
            wanted = "true" if recorder.set_rules(rules) else "false"
        need(entry.reply == wanted, "the reply is", entry.line, wanted)
    for sample in steps[at:]:
        accepted += scan(sample)
    return taken, accepted


def check_recorder(lines, recorder):
    line = lines.next("recorder ")
    wanted = (f"{len(recorder.scans)} {recorder.closed - recorder.taken} "
              f"{'true' if recorder.is_open() else 'false'} {recorder.held()}")
    need(line == wanted, "the recorder has", line, wanted)
    line = lines.next("rules ")
    need(line == rules_text(recorder.rules), "the rules are", line, rules_text(recorder.rules))
    wanted = [f"waits {recorder.extent(i)} {record_sum(recorder.record(i))}"
              for i in range(recorder.taken, recorder.closed)]
    got = list(lines.while_("waits "))
    need(got == wanted, "records that wait", got, wanted)
    need(lines.at == len(lines.lines), "more lines", lines.lines[lines.at:lines.at + 1])


class Caller:
    """What one token's calls were seen to answer: for each that has an entry (kind, reply, steps pumped before, number or sum)."""

    def __init__(self):
        self.made, self.pumped, self.memory = [], 0, 0
        self.triggers = self.takes = 0
        self.rules = []

    def note(self, text, calls):
        if text.startswith("Pump("):
            match = PUMP.match(text)
            need(match, "no pump", text)
            most, scans = int(match[1]), int(match[2])
            need(scans <= most and (match[3] == "Most") == (scans == most), "a pump answered", text)
            need(match[3] in ("Most", "Empty", "Memory"), "a pump answered", text)
            self.pumped += scans
            self.memory += match[3] == "Memory"
        elif text.startswith("Trigger("):
            self.triggers += 1
            self.answered("Trigger", text[8:-1], text == "Trigger(Err(Memory))", None)
        elif text.startswith("Rules("):
            match = RULES.match(text)
            number = int(match[1])
            need(number in calls, "no rules of this number", text)
            self.rules.append(number)
            need(match[2] in ("Ok(())", "Err(NoChannel)", "Err(Memory)"), "rules answered", text)
            reply = "true" if match[2] == "Ok(())" else "false"
            self.answered("SetRules", reply, match[2] == "Err(Memory)", number)
        else:
            self.takes += 1
            match = TAKEN.match(text)
            if match:
                self.answered("Take", f"Some({match[1]})", False, int(match[2]))
            else:
                need(text in ("TakeNone", "TakeMemory"), "no call", text)
                self.answered("Take", "None", text == "TakeMemory", None)

    def answered(self, kind, reply, is_memory, more):
        self.memory += is_memory
        if not is_memory:
            self.made.append((kind, reply, self.pumped, more))


def check_caller(seat, caller, entries):
    """Its calls are the log's entries of its seat, in order. Its own pumps stand before and after each of them."""
    need(len(entries) == len(caller.made), "the log has more or fewer entries of the seat", seat, len(entries), len(caller.made))
    for entry, (kind, reply, pumped, more) in zip(entries, caller.made):
        need((entry.kind, entry.reply) == (kind, reply), "the caller saw", seat, entry.line, (kind, reply))
        need(entry.at >= pumped, "the place is before the caller's own pumps", seat, entry.line, pumped)
        entry.more = more


def check_works(script, callers):
    """The calls were given out in the script's order: some first part of them was made."""
    made = sum(c.triggers + c.takes + len(c.rules) for c in callers)
    given = script.calls[:made]
    need(sum(word == "trigger" for _, word, _ in given) == sum(c.triggers for c in callers), "triggers made")
    need(sum(word == "take" for _, word, _ in given) == sum(c.takes for c in callers), "takes made")
    need(sorted(n for c in callers for n in c.rules) == [n for _, n, rules in given if rules is not None], "rules set")


def first_end(trouble, seat, callers):
    """Why the first end is refused, where the token of this seat is missing, or exchanged for one of seat 0 that made nothing."""
    if trouble == "Stranger":
        if seat != 0:
            return "Tokens"
        return "Mismatch" if callers[0].made or callers[0].pumped else None
    return {"Missing": "Tokens", "Refused": "Memory", "None": None}[trouble]


def judge_shared(script, args, lines, seen):
    lane, seats = int(args[2]), int(args[3])
    need(lines.next("started ") == "true", "threads weren't started")
    rules = {number: rules for _, number, rules in script.calls if rules is not None}
    callers = []
    for seat in range(seats):
        caller = Caller()
        start = f"{seat} "
        for line in lines.while_(start):
            text = line[len(start):]
            if text.startswith("pumped "):
                need(int(text[7:]) == caller.pumped, "the token counts", line, caller.pumped)
                break
            caller.note(text, rules)
        else:
            differ("no count of the seat", seat)
        callers.append(caller)
    check_works(script, callers)
    offered, behind = offered_steps(script, lines.next("source full "), lane)
    need(int(lines.next("lost ")) == behind, "lost behind the last scan", behind)
    ending, seat = lines.next("end with ").split()
    first = list(lines.while_("first end "))
    wanted = first_end(ending, int(seat), callers)
    need(first == ([f"first end {wanted}"] if wanted else []), "the first end", ending, first, wanted)
    log = read_log(lines)
    by_seat = [[] for _ in range(seats)]
    for entry in log:
        need(entry.seat < seats, "an entry of no seat", entry.line)
        by_seat[entry.seat].append(entry)
    for seat, caller in enumerate(callers):
        check_caller(seat, caller, by_seat[seat])
    total = sum(caller.pumped for caller in callers)
    need(total <= len(offered), "more steps than were offered", total, len(offered))
    for entry in log:
        if entry.kind == "SetRules":
            entry.given_rules = rules[entry.more]
    recorder = Recorder(script)
    taken, _ = weave(recorder, offered[:total], log)
    sums_seen = [entry.more for entry in log if entry.kind == "Take" and entry.more is not None]
    for i, total_seen in zip(taken, sums_seen):
        need(total_seen == record_sum(recorder.record(i)), "the record has other scans", recorder.extent(i))
    check_left(lines, offered[total:])
    check_recorder(lines, recorder)
    seen.add("scan steps", total)
    seen.add("of them lost", offered[:total].count(None))
    seen.add("left in lanes", len(offered) - total)
    seen.add("calls", len(log))
    seen.add("records taken", len(taken))
    seen.add("refused allocations", sum(caller.memory for caller in callers) + (ending == "Refused"))
    seen.add("ends first refused", len(first))


# `run_live`.


def wanted_orders(script, total):
    """The orders as entries: the call, and the place."""
    at = 0
    for place, word, rules in script.calls:
        at = max(at, min(place, total))
        yield ("Trigger" if rules is None else "SetRules"), at, rules


def unhurried(script, steps):
    """The records of a run whose shelf is never full, whatever the schedule; None where it might be."""
    recorder = Recorder(script)
    at = 0
    for kind, place, rules in wanted_orders(script, len(steps)):
        for sample in steps[at:place]:
            recorder.scan(sample)
            recorder.taken = recorder.closed
        at = place
        if kind == "Trigger":
            recorder.trigger()
        else:
            recorder.set_rules(rules)
    for sample in steps[at:]:
        recorder.scan(sample)
        recorder.taken = recorder.closed
    return recorder if len(recorder.ivs) <= script.shelf else None


def files_text(script, extent, iv, scans, kind):
    cfg = cfg_of(script, iv, kind)
    dat = ascii_of(script, scans) if kind == "ASCII" else binary_of(script, scans)
    return f"sink {extent} {zlib.adler32(cfg)} {zlib.adler32(dat)}"


def sink_texts(recorder, numbers, kind):
    return [files_text(recorder.script, recorder.extent(i), recorder.ivs[i], recorder.record(i), kind) for i in numbers]


def judge_station(script, args, lines, seen):
    kind = "ASCII" if int(args[3]) % 2 == 0 else "BINARY"
    sink = list(lines.while_("sink "))
    feed_left, sink_left, refused = lines.next("to come ").split()
    steps = list(script.samples)
    while steps and steps[-1] is None:
        steps.pop()
    if lines.lines[lines.at].startswith("fault "):
        fault = lines.next("fault ")
        if feed_left == "0":
            wanted = ["Feed(7)"]
            seen.add("feeds that failed")
        elif sink_left == "0":
            wanted = ["Sink(9)"]
            seen.add("sinks that failed")
        else:
            wanted = ["Memory", "Open(Memory)", "End(Memory)"] if refused == "true" else []
            seen.add("refused allocations")
        need(fault in wanted, "the fault is", fault, wanted)
        recorder = unhurried(script, steps)
        if recorder is not None:
            texts = sink_texts(recorder, range(min(len(sink), recorder.closed)), kind)
            need(sink == texts, "the sink has no prefix", sink, texts)
        return
    need(feed_left != "0" and sink_left != "0" and refused == "false", "a fault was not told", feed_left, sink_left, refused)
    report = [int(word) for word in lines.next("report ").split()]
    log = read_log(lines)
    orders = [entry for entry in log if entry.seat == 0]
    wanted = list(wanted_orders(script, len(steps)))
    need(len(orders) == len(wanted), "orders made", len(orders), len(wanted))
    for entry, (word, at, rules) in zip(orders, wanted):
        need((entry.kind, entry.at) == (word, at), "the order is", entry.line, word, at)
        entry.given_rules = rules
    need(all(entry.kind == "Take" for entry in log if entry.seat != 0), "a call of the export thread")
    recorder = Recorder(script)
    taken, accepted = weave(recorder, steps, log)
    need(report == [len(steps), len(steps) - accepted, len(taken)], "the report is", report, len(steps), accepted, len(taken))
    need(sink == sink_texts(recorder, taken, kind), "the sink has", sink, sink_texts(recorder, taken, kind))
    need(recorder.closed == recorder.taken, "a closed record wasn't exported")
    check_left(lines, [])
    check_recorder(lines, recorder)
    seen.add("scan steps", len(steps))
    seen.add("of them lost", steps.count(None))
    seen.add("calls", len(log))
    seen.add("records taken", len(taken))


def judge(script_text, args, transcript, seen):
    """Raises Difference where the transcript isn't that of the definitions."""
    sums.clear()
    script = Script(script_text.rstrip("\n"))
    lines = Lines(transcript)
    if args[0] == "station":
        judge_station(script, args, lines, seen)
    else:
        judge_shared(script, args, lines, seen)
    seen.add("runs")
