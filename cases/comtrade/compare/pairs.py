"""Makes the records that the case compares, in the folder that is named: both ends of a line with clocks that agree, a relay before and after a
change of its setting, and some that can't be compared."""

import importlib.util
import sys

spec = importlib.util.spec_from_file_location("make", "../docs/gallery/make.py")
make = importlib.util.module_from_spec(spec)
spec.loader.exec_module(make)


class At(make.Pair):
    """A pair whose first row was taken so many microseconds after 10:30:00 of a day."""

    def __init__(self, name, first=0, day="01/07/2024", **more):
        super().__init__(name, **more)
        self.first, self.day = first, day

    def instant(self, seconds):
        micros = self.first + round(seconds * 1e6)
        return f"{self.day},10:{30 + micros // 60_000_000:02}:{micros // 1_000_000 % 60:02}.{micros % 1_000_000:06}"


def end_of_line(name, station, first, rate, trigger, share, ids):
    """What one end of a line saw of a fault of phase A at 10:30:00.060, which its breaker cleared at .130."""
    pair = At(name, first=first, rate=rate, trigger=trigger, station=station)
    for id, unit in ids:
        pair.channel(id, id[1], "Line 3", unit, a=0.01 if unit == "kV" else 1, ratio=("110000", "100") if unit == "kV" else ("600", "1"))
    pair.contact("Breaker closed", 1)
    pair.contact("Trip")
    for i in range(round(0.2 * rate)):
        t = first / 1e6 + i / rate
        is_fault = 0.06 <= t < 0.13
        samples = []
        for id, unit in ids:
            k = "ABCN".index(id[1]) % 3
            if unit == "kV":
                samples.append(make.wave(9000 * (0.3 if is_fault and k == 0 else 1), t, k * make.TURN + share / 10))
            else:
                samples.append(0 if t >= 0.13 else make.wave(300 * (20 * share if is_fault and k == 0 else 1), t, k * make.TURN + 0.5))
        pair.row(samples, [int(t < 0.13), int(0.09 <= t < 0.15)])
    return pair


def relay(name, day, first, trigger, delay):
    """A relay whose trip comes so late after the fault."""
    pair = At(name, first=first, day=day, rate=4800, trigger=trigger)
    pair.channel("IA", "A", "", "A", a=0.5, b=1)
    pair.channel("3I0", "", "", "A", a=0.25)
    pair.contact("Trip")
    for i in range(960):
        t = i / 4800 - trigger
        amps = 600 if 0 <= t < delay + 0.05 else 0 if t >= 0 else 100
        pair.row([make.wave(amps, t, 0.7), make.wave(amps - 100 if amps else 0, t, 0.9)], [int(delay <= t < delay + 0.08)])
    return pair


def all_pairs():
    near = [("UA", "kV"), ("UB", "kV"), ("UC", "kV"), ("IA", "A"), ("IB", "A"), ("IC", "A"), ("IN", "A")]
    far = [("IC", "kA"), ("IB", "A"), ("IA", "A"), ("UA", "kV"), ("UB", "kV"), ("UN", "kV")]
    yield end_of_line("near", "Northfield 110 kV", 0, 4800, 0.06, 1.0, near)
    yield end_of_line("far", "Southfield 110 kV", 3125, 2000, 0.060005, 0.6, far)
    yield relay("old", "01/07/2024", 0, 0.05, 0.06)
    yield relay("new", "02/08/2024", 500_000, 0.0501, 0.03)
    foreign = At("foreign")
    foreign.channel("Q1", "", "", "A")
    foreign.row([1])
    foreign.row([2])
    yield foreign
    timeless = relay("timeless", "01/07/2024", 0, 0.05, 0.06)
    timeless.is_stamped, timeless.rates = False, [(0, 960)]
    yield timeless
    unknown = relay("unknown", "01/07/2024", 0, 0.05, 0.06)
    unknown.instant = lambda seconds: "01/01/1970,00:00:00.000000"
    yield unknown


for pair in all_pairs():
    pair.write(sys.argv[1])
