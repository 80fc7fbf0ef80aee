#!/usr/bin/env python3
"""The rules of `dfr_clock` apart from its code, and a simulated year: bench/clock.py COMMAND

  compare TRACE N [SEED]    N random histories through the program and through the rules; the status is 1 if one differs
  year TRACE [SEED] [DAYS]  a station over a year: how far the dates of its triggers are from the truth

TRACE is a program that carries out the lines of `benchmarks clock`, such as `benchmarks clock` itself.
"""
import random
import subprocess
import sys
import threading

SECOND = 1_000_000
TOP = 2**64 - 1


def less(a, b):
    """a - b, or 0."""
    return a - b if a > b else 0


class Settings:
    def __init__(self, rate, window=8 * SECOND, slew=1_000, late=2_500_000, apart=50_000, step=2_000, most=1_000_000):
        self.rate, self.window, self.slew, self.late = rate, window, slew, late
        self.apart, self.step, self.most = apart, step, most

    def words(self):
        return f"{self.rate} {self.window} {self.slew} {self.late} {self.apart} {self.step} {self.most}"


class Line:
    """From one place of the scans on: its instant, and where it is a window later."""

    def __init__(self, place, instant, later, era, run):
        self.place, self.instant, self.later, self.era, self.run = place, instant, later, era, run


class Rules:
    """What the rules say after a list of readings."""

    def __init__(self, settings, kept, scans, wall, mono):
        self.s, self.kept, self.lines, self.date_before, self.told = settings, kept, [], None, False
        self.restart(0, scans - 1, wall, 0)
        self.scans, self.wall, self.mono = scans, wall, mono

    def place(self, k):
        return k * SECOND // self.s.rate

    def on(self, line, place):
        gone = less(place, line.place)
        if gone < self.s.window:
            return line.instant + gone * (line.later - line.instant) // self.s.window
        return line.later + gone - self.s.window

    def put(self, line):
        self.lines = [line] + self.lines[:self.kept]

    def restart(self, first, newest, wall, era):
        """The newest scan has the clock's instant; the first one is dated back from it."""
        place = self.place(first)
        instant = less(wall, less(self.place(newest), place))
        self.put(Line(place, instant, instant + self.s.window, era, place))
        self.samples, self.settles = [instant], True

    def missing(self, due, clock, limit):
        return (clock - due) * self.s.rate // SECOND if clock > due + limit else 0

    def read(self, scans, wall, mono):
        """How many lost scans the reading shows, and by how much the clock was set."""
        if self.told or scans <= self.scans:
            return 0, 0
        line = self.lines[0]
        newest, place = scans - 1, self.place(scans - 1)
        by = (wall - self.wall) - (mono - self.mono)
        jump = by if abs(by) > self.s.step else 0
        clock = self.wall + less(mono, self.mono) if jump else wall
        missing = self.missing(self.on(line, place), clock, self.s.late)
        lost = min(missing, self.s.most)
        was, self.scans, self.wall, self.mono = self.scans, scans + lost, wall, mono
        if jump:
            self.restart(newest + lost, newest + lost, wall, self.place(newest + lost))
            return lost, jump
        if missing:
            self.restart(was + lost, newest + lost, wall, line.era)
            return lost, 0
        self.samples.append(less(wall, less(place, line.place)))
        least = min(self.samples)
        if self.settles:
            line.instant, line.later = least, least + self.s.window
        if place >= line.place + self.s.window:
            by_least = least + place - line.place
            lost = self.missing(self.on(line, place), by_least, self.s.apart)
            if lost > self.s.most:  # not all of them may be inserted, so the clock is adopted
                self.scans = scans + self.s.most
                self.restart(was + self.s.most, newest + self.s.most, wall, line.era)
                return self.s.most, 0
            begin = self.place(newest + lost)
            instant = self.on(line, begin)
            gain = self.s.window * self.s.slew // SECOND
            goal = by_least + self.s.window
            lowest, highest = instant + self.s.window - gain, instant + self.s.window + gain
            self.put(Line(begin, instant, max(lowest, min(goal, highest)), line.era, line.run))
            self.samples, self.settles, self.scans = [wall], False, scans + lost
        return lost, 0

    def tell(self, scans, instant):
        """The converter tells when the next scan is."""
        line, due = self.lines[0], self.on(self.lines[0], self.place(scans))
        limit = self.s.apart + less(self.place(scans), line.place) // 1_000
        # the first time is no gap, and sets the clock forward too
        lost = min(self.missing(due, instant, limit), self.s.most) if self.told else 0
        jump = instant - due if abs(instant - due) > self.s.step and (instant < due or not self.told) else 0
        place = self.place(scans + lost)
        era = place if instant < due else self.lines[0].era
        self.put(Line(place, instant, instant + self.s.window, era, place))
        self.told, self.scans = True, scans + lost
        return lost, jump

    def line_at(self, place):
        return next((line for line in self.lines if line.place <= place), self.lines[-1])

    def instant(self, k):
        place = self.place(k)
        return self.on(self.line_at(place), place)

    def date(self, k):
        era, instant = self.line_at(self.place(k)).era, self.instant(k)
        if self.date_before and self.date_before[0] == era:
            instant = max(instant, self.date_before[1])
        self.date_before = era, instant
        return instant

    def offset(self, start):
        newest = less(self.scans, 1)
        return self.instant(newest) - start - self.place(newest)

    def drift(self):
        """Parts per billion by which the scans are slow and fast."""
        new, old = self.lines[0], self.lines[0]
        for line in self.lines:
            if line.run != new.run:
                break
            old = line
        clock, scans = new.instant - old.instant, new.place - old.place
        if scans <= 0 or clock < 0:
            return 0, 0
        return (less(clock, scans) * 10**9 // scans, less(scans, clock) * 10**9 // scans)


def history(r):
    """The lines of a random history, and what the rules answer."""
    rate = r.choice([1, 7, 50, 4_800, 4_801, 1_000_000, r.randint(1, 1_000_000)])
    window = r.choice([1, 1_000, SECOND, 8 * SECOND, 2**30, r.randint(1, 2**30)])
    s = Settings(rate, window, r.choice([0, 100, 1_000, SECOND, r.randint(0, SECOND)]), r.choice([0, 2_500_000, r.randint(0, 2**32 - 1)]),
                 r.choice([0, 50_000, r.randint(0, 2**32 - 1)]), r.choice([0, 2_000, r.randint(0, 10**9)]), r.choice([0, 1, 10**6, r.randint(0, 2**32 - 1)]))
    kept, start = r.choice([0, 1, 3, 50]), r.choice([0, 1_719_829_800_000_000, TOP])
    scans, wall, mono = r.randint(1, 10_000), r.choice([0, 5, 1_719_829_800_000_000]), r.choice([0, 10**7, TOP - 10**9])
    lines, wanted, lost = [f"begin {s.words()} {kept} {start} {scans} {wall} {mono}"], [], 0
    rules = Rules(s, kept, scans, wall, mono)
    wild = r.random() < 0.2
    for _ in range(r.randint(1, 60)):
        gone = r.choice([0, 1, 1_000, SECOND, window // 3, window, r.randint(0, 4 * window)])
        scans += gone * rate // SECOND + r.choice([0, 0, 1, 2])
        delay = r.choice([0, 0, 0, r.randint(0, 3_000), r.randint(0, 2 * SECOND)])
        pause = r.choice([0] * 20 + [r.randint(0, 100 * SECOND)])
        wall, mono = wall + gone + pause, mono + gone + pause
        wall = max(0, wall + r.choice([0] * 20 + [SECOND, -SECOND, r.randint(-10**12, 10**12)]))
        if wild and r.random() < 0.3:
            scans, wall, mono = (r.choice([x, 0, TOP, r.randint(0, TOP)]) for x in (scans, wall, mono))
        scans, wall, mono = min(scans, TOP - lost), min(wall, TOP), min(mono, TOP)
        count = scans + lost
        if r.random() < 0.02:
            lines.append(f"told {scans} {wall}")
            more, jump = rules.tell(count, wall)
        else:
            late_wall, late_mono = min(wall + delay, TOP), min(mono + delay, TOP)
            lines.append(f"read {scans} {late_wall} {late_mono}")
            more, jump = rules.read(count, late_wall, late_mono)
        wanted.append(f"lost {more} forward {max(jump, 0)} back {max(-jump, 0)}")
        lost += more
        if lost + scans > TOP:
            # (the program counts in 64 bits, and says so)
            lines.pop(), wanted.pop()
            break
        for _ in range(3):
            k = r.choice([0, scans, max(0, scans - 1), r.randint(0, scans), r.randint(0, TOP - lost)])
            lines.append(f"instant {k}")
            wanted.append(str(rules.instant(k + lost)))
        if r.random() < 0.5:
            k = r.randint(max(0, scans - 10_000), scans)
            lines.append(f"date {k}")
            wanted.append(str(rules.date(k + lost)))
        lines.append("state")
        slow, fast = rules.drift()
        wanted.append(f"offset {rules.offset(start)} slow {slow} fast {fast}")
    return lines, wanted


def compare(trace, count, seed):
    r = random.Random(seed)
    differences = answers = 0
    histories = [history(r) for _ in range(count)]
    text = "".join("\n".join(lines) + "\n" for lines, _ in histories)
    found = subprocess.run(trace, input=text, capture_output=True, text=True, check=True).stdout.splitlines()
    wanted = [line for _, lines in histories for line in lines]
    for number, (a, b) in enumerate(zip(found, wanted)):
        answers += 1
        if a != b:
            differences += 1
            if differences <= 5:
                print(f"answer {number}: {a}, but by the rules {b}")
    if len(found) != len(wanted):
        differences += 1
        print(f"{len(found)} answers, but by the rules {len(wanted)}")
    print(f"{count} histories, {answers} answers, {differences} differences")
    return 1 if differences else 0


class Station:
    """A converter with a crystal that wanders, a clock that is set, and a reader that is late now and then. Real time is in microseconds."""

    RATE = 4_800
    EPOCH = 1_719_829_800_000_000

    def __init__(self, seed, days):
        self.r = r = random.Random(seed)
        self.seconds = days * 86_400
        share = days / 365
        moments = r.sample(range(120, self.seconds - 120), max(3, round(22 * share)))
        few = max(1, round(2 * share))
        self.steps, rest = set(moments[:few]), moments[few:]
        self.restarts, self.dropouts = set(rest[:len(rest) // 2]), set(rest[len(rest) // 2:])
        self.ppm = r.choice([-20.0, 20.0])
        self.events = {}

    def run(self, send):
        """Sends the line of each reading, and those of the triggers whose records have closed. Yields (truth, kind) for each trigger."""
        r, rate, gauss, chance, uniform, exponential = self.r, self.RATE, self.r.gauss, self.r.random, self.r.uniform, self.r.expovariate
        real, own, wander, offset, stalled = 0.0, 0.0, 0.0, 0, -1.0
        scans, waiting, last, since, kind = 0, [], "start", 0, "start"
        for second in range(self.seconds):
            set_at, before = real, offset
            if second in self.steps:
                offset += r.choice([-1, 1]) * r.choice([SECOND, 137_000, 3_600 * SECOND])
                kind, since = "minute after a step", second
            elif second in self.restarts:
                real += uniform(3, 600) * SECOND
                kind, since = "minute after a restart", second
            elif second in self.dropouts:
                real += uniform(0.06, 2.4) * SECOND
                kind, since = "minute after a dropout", second
            elif second - since > 60:
                kind = "ordinary"
            wander = max(-3.0, min(3.0, wander + gauss(0, 0.005)))
            day = second % 86_400 / 43_200
            slow = 1 + (self.ppm + 2 * abs(1 - day) + wander) / SECOND
            took = SECOND + uniform(-1_000, 1_000)
            first, own = scans, own + took
            real += took * slow
            scans = int(own * rate / SECOND) + 1
            came = real - (own - (scans - 1) * SECOND / rate) * slow
            if real > stalled and chance() < 1 / 60:
                stalled = real + uniform(0, 2) * SECOND
            read = came + exponential(1 / 200) if real > stalled else max(came, stalled)
            send(f"quiet {scans} {int(self.EPOCH + read + offset)} {int(10**7 + read)}" if second else
                 f"begin {Settings(rate).words()} 4096 {self.EPOCH} {scans} {int(self.EPOCH + read + offset)} {int(10**7 + read)}")
            while waiting and waiting[0][0] + 720 < scans:
                _, truth, was = waiting.pop(0)
                send("close")
                yield truth, was
            if kind != "ordinary" or chance() < 1 / 60:
                trigger = r.randrange(first, scans)
                instant = real - (own - trigger * SECOND / rate) * slow
                send(f"mark {trigger}")
                waiting.append((trigger, self.EPOCH + instant + (offset if instant >= set_at else before), kind))


def year(trace, seed, days):
    program = subprocess.Popen(trace, stdin=subprocess.PIPE, stdout=subprocess.PIPE, text=True, bufsize=1 << 20)
    answers = []
    reader = threading.Thread(target=lambda: answers.extend(program.stdout))
    reader.start()
    lines, truths = [], []

    def send(line):
        lines.append(line)
        if len(lines) >= 20_000:
            program.stdin.write("\n".join(lines) + "\n")
            lines.clear()

    for told in Station(seed, days).run(send):
        truths.append(told)
    program.stdin.write("\n".join(lines) + "\nstate\n")
    program.stdin.close()
    reader.join()
    program.wait()
    dates = [int(line) for line in answers if line[0].isdigit()]
    gaps = [line.split() for line in answers if line.startswith("lost")]
    worst = {}
    for date, (truth, kind) in zip(dates, truths, strict=True):
        count, most, over = worst.get(kind, (0, 0.0, 0))
        error = abs(date - truth)
        worst[kind] = (count + 1, max(most, error), over + (error > 2_000))
    print(f"seed {seed}, {days} days: {sum(int(g[1]) > 0 for g in gaps)} gaps, {sum(int(g[1]) for g in gaps)} lost scans, "
          f"{sum(g[3] != '0' or g[5] != '0' for g in gaps)} times set, {answers[-1].strip()}")
    for kind, (count, most, over) in sorted(worst.items()):
        print(f"  {kind}: {count} triggers, the worst {most / 1_000:.3f} ms from the truth, {over} more than 2 ms")
    return 1 if worst.get("ordinary", (0, 0, 1))[2] else 0


def main(words):
    if len(words) >= 3 and words[0] == "compare":
        return compare(words[1].split(), int(words[2]), int(words[3]) if len(words) > 3 else 1)
    if len(words) >= 2 and words[0] == "year":
        return year(words[1].split(), int(words[2]) if len(words) > 2 else 1, int(words[3]) if len(words) > 3 else 365)
    print(__doc__)
    return 2


sys.exit(main(sys.argv[1:]))
