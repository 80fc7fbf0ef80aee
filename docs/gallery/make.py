#!/usr/bin/env python3
"""Makes the 24 pairs of the gallery in the folder that is named: NAME.cfg and NAME.dat for each. README.md beside this script says
what to look for in the picture of each. Nothing in them is left to chance that a second run would change."""

import math
import random
import struct
import sys

TURN = 2 * math.pi / 3


def analog(n, id, phase="", component="", unit="A", a=0.01, b=0, ratio=("1", "1"), side="P"):
    return f"{n},{id},{phase},{component},{unit},{a},{b},0,-32767,32767,{ratio[0]},{ratio[1]},{side}"


class Pair:
    """A pair: channels as lines, rows as (samples, bits), in which None is a missing reading."""

    def __init__(self, name, rate=4800, hertz=50, trigger=0.05, kind="ASCII", station="Northfield 110 kV"):
        self.name, self.rate, self.hertz, self.trigger, self.kind = name, rate, hertz, trigger, kind
        self.station, self.channels, self.contacts, self.rows = station, [], [], []
        self.is_stamped, self.rates = True, None

    def channel(self, *words, **more):
        self.channels.append(analog(len(self.channels) + 1, *words, **more))

    def contact(self, id, normal=0):
        self.contacts.append(f"{len(self.contacts) + 1},{id},,,{normal}")

    def row(self, samples, bits=()):
        self.rows.append(([None if s is None else round(s) for s in samples], list(bits)))

    def instant(self, seconds):
        micros = round(seconds * 1e6)
        return f"01/07/2024,10:{30 + micros // 60_000_000:02}:{micros // 1_000_000 % 60:02}.{micros % 1_000_000:06}"

    def head(self):
        a, d = len(self.channels), len(self.contacts)
        rates = self.rates or [(self.rate, len(self.rows))]
        lines = [f"{self.station},Bay 3 DFR,1999", f"{a + d},{a}A,{d}D", *self.channels, *self.contacts, str(self.hertz)]
        lines += [str(len(rates) if rates[0][0] else 0), *(f"{samp},{end}" for samp, end in rates)]
        lines += [self.instant(0), self.instant(self.trigger), self.kind, "1"]
        return "".join(line + "\r\n" for line in lines)

    def stamp(self, i):
        return round(i * 1e6 / self.rate) if self.is_stamped else None

    def ascii(self):
        for i, (samples, bits) in enumerate(self.rows):
            words = [i + 1, self.stamp(i), *samples, *bits]
            yield (",".join("" if word is None else str(word) for word in words) + "\r\n").encode()

    def binary(self):
        for i, (samples, bits) in enumerate(self.rows):
            stamp = self.stamp(i)
            samples = [-32768 if s is None else s for s in samples]
            groups = [sum(bit << k for k, bit in enumerate(bits[g : g + 16])) for g in range(0, len(bits), 16)]
            yield struct.pack(f"<II{len(samples)}h{len(groups)}H", i + 1, 2**32 - 1 if stamp is None else stamp, *samples, *groups)

    def write(self, folder):
        with open(f"{folder}/{self.name}.cfg", "w", newline="") as file:
            file.write(self.head())
        with open(f"{folder}/{self.name}.dat", "wb") as file:
            file.writelines(self.binary() if self.kind == "BINARY" else self.ascii())


def wave(size, seconds, phase=0.0, hertz=50):
    return size * math.sin(2 * math.pi * hertz * seconds - phase)


def phases(size, seconds, fault=1.0, hertz=50):
    """Samples of three phases and their sum, the first one `fault` times as large."""
    three = [wave(size * (fault if k == 0 else 1), seconds, k * TURN, hertz) for k in range(3)]
    return [*three, sum(three)]


def plain(name, seconds, trigger, fault, rate=4800, **more):
    """Voltages and currents of a bay with a fault of phase A from the trigger on, so long, and three contacts."""
    pair = Pair(name, rate=rate, trigger=trigger, **more)
    for id in "UA UB UC UN".split():
        pair.channel(id, id[1], "Line 3", "kV", side="P", ratio=("110000", "100"))
    for id in "IA IB IC IN".split():
        pair.channel(id, id[1], "Line 3", "A", a=1, side="P", ratio=("600", "1"))
    for id, normal in (("Breaker closed", 1), ("Trip", 0), ("Earth fault start", 0)):
        pair.contact(id, normal)
    for i in range(round(seconds * rate)):
        t = i / rate - trigger
        is_fault = 0 <= t < fault
        volts = phases(9000, t, 0.3 if is_fault else 1, pair.hertz)
        amps = phases(300, t, 20 if is_fault else 1, pair.hertz)
        if t >= fault:
            amps = [0, 0, 0, 0]
        trip = 0.02 <= t < fault + 0.05
        pair.row(volts + amps, [int(t < fault), int(trip), int(0.01 <= t < fault + 0.02)])
    return pair


def one_channel():
    pair = Pair("01-one-channel", trigger=0.02)
    pair.channel("UA", "A", "Line 3", "kV")
    for i in range(480):
        pair.row([wave(9000, i / 4800)])
    return pair


def short():
    return plain("02-five-ms", 0.005, 0.002, 0.002, rate=20_000)


def usual():
    return plain("03-usual", 0.3, 0.05, 0.1)


def minute():
    return plain("04-sixty-seconds", 60, 20, 0.08, rate=1200, kind="BINARY")


def hundred():
    pair = plain("05-hundred-seconds", 100, 99.7, 0.1, rate=400, kind="BINARY")
    return pair


def interleaved():
    pair = Pair("06-interleaved")
    for letter in "ABC":
        pair.channel(f"I{letter}", letter, "", "A", a=1)
        pair.channel(f"U{letter}", letter, "", "kV")
    for i in range(960):
        t = i / 4800
        amps, volts = phases(600, t), phases(9000, t)
        pair.row([sample for both in zip(amps[:3], volts[:3]) for sample in both])
    return pair


def two_bays():
    pair = Pair("07-two-bays")
    for letter in "ABC":
        for bay in (1, 2):
            pair.channel(f"I{letter} bay {bay}", letter, "", "A", a=1)
    for i in range(960):
        t = i / 4800
        one, two = phases(600, t), phases(300, t + 0.003)
        pair.row([sample for both in zip(one[:3], two[:3]) for sample in both])
    return pair


def many_contacts():
    pair = Pair("08-96-contacts")
    pair.channel("IA", "A", "Line 3", "A", a=1)
    for n in range(1, 97):
        pair.contact(f"Input {n}" if n % 7 else f"Isolator {n} of busbar section {n % 3} is closed", n % 2)
    for i in range(960):
        bits = [n % 2 for n in range(1, 97)]
        bits[4] = int(i > 300)
        bits[40] = int(300 < i < 500)
        bits[90] = int(i // 60 % 2)
        pair.row([wave(600, i / 4800)], bits)
    return pair


def lost():
    pair = plain("09-lost-scans", 0.2, 0.05, 0.1)
    for first, count in ((300, 60), (600, 5), (610, 1), (900, 60)):
        for i in range(first, first + count):
            pair.rows[i] = ([None] * 8, pair.rows[first - 1][1])
    return pair


def hidden():
    pair = Pair("10-large-beside-small")
    for id, phase in (("IA", "A"), ("IB", "B"), ("IN", "N")):
        pair.channel(id, phase, "Line 3", "A", a=1)
    for i in range(960):
        t = i / 4800
        pair.row([wave(20_000, t), wave(19_000, t, TURN), wave(50, t) + wave(10, t, 0, 150)])
    return pair


def empty():
    pair = Pair("11-no-readings")
    for letter in "ABC":
        pair.channel(f"U{letter}", letter, "Line 3", "kV")
    pair.channel("Temperature", "", "Transformer 1", "degC", a=0.1)
    for i in range(480):
        pair.row([*phases(9000, i / 4800)[:3], None])
    return pair


def long_names():
    pair = Pair("12-long-names", station="Substation of the northern industrial area: busbar section two")
    for n, letter in enumerate("ABC"):
        pair.channel(f"Current of the transformer feeder number {n + 1} on the high side", letter, "", "A", a=1)
    pair.channel("x" * 64, "N", "", "A", a=1)
    pair.contact("Breaker of the transformer feeder on the high-voltage side closed")
    for i in range(480):
        pair.row(phases(600, i / 4800), [int(i > 200)])
    return pair


def huge():
    pair = Pair("13-1e20")
    pair.channel("IA", "A", "", "A", a="1E16")
    pair.channel("UA", "A", "", "V", a="1E-22")
    pair.channel("P", "", "", "bar", a="1E30")
    for i in range(480):
        t = i / 4800
        pair.row([wave(10_000, t), wave(10_000, t, 1), wave(20_000, t, 2)])
    return pair


def constant():
    pair = Pair("14-constant")
    pair.channel("Battery", "", "", "V", a=0.01)
    pair.channel("Large", "", "", "A", a="1E16")
    pair.channel("Zero", "", "", "W", a=1)
    pair.channel("Offset", "", "", "Hz", a="1E-6", b=50)
    for i in range(480):
        pair.row([11_000, 10_000, 0, i % 7])
    return pair


def timeless():
    pair = Pair("15-no-times")
    pair.is_stamped, pair.rates = False, [(0, 300)]
    pair.channel("UA", "A", "", "kV")
    pair.contact("Trip")
    for i in range(300):
        pair.row([wave(9000, i / 1200)], [int(i > 100)])
    return pair


def one_row():
    pair = Pair("16-one-row", trigger=0)
    pair.channel("UA", "A", "", "kV")
    pair.channel("UB", "B", "", "kV")
    pair.contact("Trip")
    pair.row([8000, -4000], [1])
    return pair


def five_rows():
    pair = Pair("17-five-rows", rate=1000, trigger=0.002)
    pair.channel("UA", "A", "", "kV")
    for sample in (1, None, 3, None, 5):
        pair.row([sample])
    return pair


def contacts_alone():
    pair = Pair("18-contacts-alone")
    for n in range(6):
        pair.contact(f"Input {n + 1}")
    for i in range(960):
        pair.row([], [int(i % (100 * (n + 2)) > 60) if n < 4 else n % 2 for n in range(6)])
    return pair


def wide(name, count, distinct, rate=1200, seconds=0.5, kind="BINARY"):
    pair = Pair(name, rate=rate, kind=kind)
    for n in range(count):
        letter = "ABCN"[n % 4] if distinct else ""
        bay = n // 4 + 1
        pair.channel(f"I{letter or n + 1} bay {bay}", letter, "" if n % 8 < 4 else f"Bay {bay}", "A", a=1)
    for i in range(round(rate * seconds)):
        pair.row([wave(1000 + 10 * n, i / rate, (n % 4) * TURN) for n in range(count)])
    return pair


def channels_64():
    return wide("19-64-channels", 64, True)


def channels_256():
    return wide("20-256-channels", 256, False)


def noise():
    pair = Pair("21-noise", rate=20_000, kind="BINARY", trigger=0.4)
    numbers = random.Random(5)
    for letter in "ABCN":
        pair.channel(f"I{letter}", letter, "Line 3", "A", a=1)
    for i in range(20_000):
        spike = 30_000 if i == 12_345 else 0
        pair.row([numbers.randint(-1000, 1000) + (spike if k == 1 else 0) for k in range(4)])
    return pair


def secondary():
    pair = plain("22-secondary-60-hz", 0.2, 0.05, 0.1, hertz=60)
    pair.channels = [line[:-1] + ("S" if n < 4 else "P") for n, line in enumerate(pair.channels)]
    return pair


def two_rates():
    pair = plain("23-two-rates", 0.3, 0.05, 0.1)
    pair.rates = [(4800, 480), (2400, 960)]
    pair.rows = pair.rows[:480] + pair.rows[480::2]
    pair.rates = [(4800, 480), (2400, len(pair.rows))]
    pair.is_stamped = False
    return pair


def odd_texts():
    pair = Pair("24-odd-texts", station="<Station & \"Bay\">")
    pair.channel("U<A> & 'B'", "A", "<script>", "V", a=0.01)
    pair.channel("T\x1b[31m", "", "", "%", a=0.01)
    pair.contact("</text>")
    for i in range(480):
        pair.row([wave(9000, i / 4800), i * 10], [int(i > 100)])
    return pair


GALLERY = [one_channel, short, usual, minute, hundred, interleaved, two_bays, many_contacts, lost, hidden, empty, long_names, huge,
    constant, timeless, one_row, five_rows, contacts_alone, channels_64, channels_256, noise, secondary, two_rates, odd_texts]

if __name__ == "__main__":
    for make in GALLERY:
        make().write(sys.argv[1])
