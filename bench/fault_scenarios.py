"""What happens in a simulated record: faults, and what is none, with all parameters from one generator of random numbers.

A scenario has the record's clock (rate, rows, trigger), the six samples of each row, the changes of its contacts, and what is true of it.
"""

import cmath
import math
from dataclasses import dataclass, field

from fault_network import Course, Line

TYPES = {
    "AG": ((0,), True), "BG": ((1,), True), "CG": ((2,), True), "AB": ((0, 1), False), "BC": ((1, 2), False), "CA": ((0, 2), False),
    "ABG": ((0, 1), True), "BCG": ((1, 2), True), "CAG": ((0, 2), True), "ABC": ((0, 1, 2), False),
}
WEIGHTS = [12, 12, 12, 7, 7, 7, 7, 7, 7, 12]
RATES = {50: [1200, 1600, 2000, 2400, 3200, 4000, 4800, 5000, 6400], 60: [1200, 1920, 2400, 3840, 4000, 4800, 5760, 6400]}


@dataclass
class Scenario:
    nominal: int
    rate: int
    rows: int
    trigger: float  # seconds since the first row
    volts: float  # line to line, nominal
    amps: float  # nominal primary current
    samples: list = None
    contacts: dict = field(default_factory=dict)  # start, trip, closed, reclose: (before, [(time, now), ..])
    truth: dict = field(default_factory=dict)

    def instants(self):
        return [i / self.rate for i in range(self.rows)]

    def millis(self, t):
        return round((t - self.trigger) * 1000, 4)


def polar(size, degrees):
    return cmath.rect(size, math.radians(degrees))


def line_of(rng, volts):
    """A line of 5 to 120 km, two sources, and a load that flows either way."""
    km = rng.uniform(5, 25) if volts < 60e3 else rng.uniform(10, 120)
    z1 = km * complex(rng.uniform(0.03, 0.2), rng.uniform(0.28, 0.42))
    line = (z1, km * complex(z1.real / km + 0.16, z1.imag / km * rng.uniform(2.5, 3.6)))
    sources = []
    for _ in range(2):
        power = volts / 1e3 * rng.uniform(12, 90) * 1e6  # 110 kV: 1.3 to 10 GVA
        z = polar(volts * volts / power, rng.uniform(78, 88))
        sources.append((z, z * rng.uniform(0.6, 3.5)))
    phase_volts = volts / math.sqrt(3)
    through = abs(sources[0][0] + line[0] + sources[1][0])
    load = rng.uniform(60, 500)
    angle = math.degrees(2 * math.asin(min(0.35, load * through / phase_volts / 2))) * rng.choice([1, 1, -1])
    begun = rng.uniform(0, 360)
    emf = polar(phase_volts * rng.uniform(0.98, 1.05), begun)
    return Line(sources[0], line, sources[1], emf, polar(phase_volts * rng.uniform(0.98, 1.05), begun - angle)), km


class Run:
    """A scenario as it goes on: the line's state, and the course that it makes."""

    def __init__(self, rng, seconds, off_nominal=0.5):
        nominal = rng.choice([50, 50, 60])
        volts = rng.choice([20, 33, 66, 110, 132, 220, 400]) * 1e3
        rate = rng.choice(RATES[nominal])
        self.rng = rng
        self.frequency = nominal + (rng.uniform(-off_nominal, off_nominal) if rng.random() < 0.7 else 0)
        self.line, self.km = line_of(rng, volts)
        self.m, self.fault, self.open, self.remote_open = rng.uniform(0.05, 0.95), None, (), False
        self.course = Course(self.frequency)
        self.at = Scenario(nominal, rate, int(seconds * rate), 0.0, volts, rng.choice([400, 600, 800, 1200, 2000]))
        self.begin(-1.0)

    def begin(self, when, **changes):
        for name, value in changes.items():
            setattr(self, name, value)
        tau = self.line.time_constant(self.m, self.fault, self.at.nominal)
        measured = self.line.measured(self.m, self.fault, self.open, self.remote_open)
        self.course.begin(when, measured, tau, self.open)

    def open_poles(self, poles, when):
        """Contacts part; each pole opens at its current's next zero. When each did."""
        opened, left = {}, [p for p in poles if p not in self.open]
        while left:
            zero, p = min((self.course.next_zero(p, when), p) for p in left)
            left.remove(p)
            opened[p] = when = zero
            self.begin(zero, open=tuple(sorted({*self.open, p})))
        return opened

    def cleared(self, phases, inception, one_pole=False):
        """Pick-up, trip and breaker after an inception. What was seen of it."""
        rng = self.rng
        start = inception + rng.uniform(0.004, 0.016)
        trip = max(start, inception + rng.uniform(0.012, 0.07))
        parts = trip + rng.uniform(0.018, 0.045)
        if rng.random() < 0.35:  # the other end first
            gone = trip + rng.uniform(0.2, 0.8) * (parts - trip)
            self.begin(gone, remote_open=True)
        opened = self.open_poles(phases if one_pole else (0, 1, 2), parts)
        told = max(opened.values()) + rng.uniform(-0.004, 0.008)
        return {"start": start, "trip": trip, "told": max(told, trip + 0.01), "opened": opened}


def fault_of(rng, kind, volts):
    """Phases, earth, arc and earth resistance."""
    phases, earth = TYPES[kind]
    arc = rng.choice([0, rng.uniform(0, 1), rng.uniform(0, 3)]) * min(1, volts / 110e3)
    ground = rng.choice([0, rng.uniform(0, 5), rng.uniform(5, 30)]) * min(1, volts / 110e3) if earth else 0
    return phases, earth, arc, ground


def closed_again(run, told, at, kind, fault):
    """A reclose, onto a healthy line or onto the fault: what is true of it, and the second fault."""
    rng = run.rng
    success = rng.random() < 0.5
    run.begin(at, open=(), remote_open=False, fault=None if success else fault)
    told["reclose"] = {"at_ms": run.at.millis(at), "success": success}
    if success:
        return None
    seen = run.cleared(fault[0], at)
    return fault_truth(run, kind, at, seen, fault)


def fault_truth(run, kind, inception, seen, fault):
    letters = "ABC"
    return {
        "type": kind,
        "inception_ms": run.at.millis(inception),
        "inception_row": math.ceil(inception * run.at.rate - 1e-9) + 1,
        "cleared_ms": run.at.millis(max(seen["opened"][p] for p in fault[0])),
        "cleared_by_phase": {letters[p]: run.at.millis(t) for p, t in sorted(seen["opened"].items())},
        "trip_ms": run.at.millis(seen["trip"]),
        "seen": seen,
    }


def add_contacts(run, faults, reclose_at):
    start, trip, closed = [], [], []
    for fault in faults:
        seen = fault.pop("seen")
        over = seen["told"] + 0.02
        start += [(seen["start"], 1), (over, 0)]
        trip += [(seen["trip"], 1), (over, 0)]
        closed += [(seen["told"], 0)]
    close = [(reclose_at - 0.06, 1), (reclose_at + 0.1, 0)] if reclose_at else []
    if reclose_at:
        closed.insert(1, (reclose_at - 0.003, 1))
    run.at.contacts = {"start": (0, start), "trip": (0, trip), "closed": (1, closed), "reclose": (0, close)}


def simulated_fault(rng):
    """A fault, for every fourth or so a reclose, for some an evolving one or single-pole tripping."""
    kind = rng.choices(list(TYPES), WEIGHTS)[0]
    recloses = rng.random() < 0.25
    before = rng.uniform(0.08, 0.3)
    dead = rng.uniform(0.35, 0.9) if recloses else 0
    run = Run(rng, before + 0.32 + (dead + 0.3 if recloses else 0))
    inception = before + rng.uniform(0, 0.02)
    run.at.trigger = round(inception + rng.choice([0, rng.uniform(0, 0.012)]), 6)
    fault = fault_of(rng, kind, run.at.volts)
    run.begin(inception, fault=fault)
    first, phases = kind, fault[0]
    evolves = None
    if len(phases) == 1 and not recloses and rng.random() < 0.12:
        evolves = inception + rng.uniform(0.025, 0.05)
        kind = {"AG": "ABG", "BG": "BCG", "CG": "CAG"}[kind]
        fault = (*TYPES[kind], fault[2], fault[3])
        run.begin(evolves, fault=fault)
    one_pole = recloses and len(phases) == 1 and rng.random() < 0.4
    seen = run.cleared(fault[0], evolves or inception, one_pole)
    seen["start"] = min(seen["start"], inception + 0.015)
    told = fault_truth(run, kind, inception, seen, fault)
    if evolves:
        told["stages"] = [{"type": first, "at_ms": run.at.millis(inception)}, {"type": kind, "at_ms": run.at.millis(evolves)}]
    faults, reclose_at = [told], None
    if recloses:
        reclose_at = seen["told"] + dead
        again = closed_again(run, told, reclose_at, kind, fault)
        faults += [again] if again else []
    add_contacts(run, faults, reclose_at)
    load = run.course.stages[0][2]
    told["parameters"] = {
        "m": round(run.m, 4), "km": round(run.m * run.km, 3), "arc": round(fault[2], 3), "earth": round(fault[3], 3),
        "frequency": round(run.frequency, 3), "volts": run.at.volts, "load": round(abs(load[0]), 1),
        "currents": [round(abs(c), 1) for c in run.course.stages[1][2]],
    }
    run.at.truth = {"kind": "fault", "faults": faults}
    run.at.samples = run.course.samples(run.at.instants())
    greatest = max(abs(x) for row in run.at.samples for x in row[3:])
    if rng.random() < 0.9:  # transformers that fit the line; the others clip
        run.at.amps = next((a for a in (400, 600, 800, 1200, 2000) if a >= run.at.amps and 28 * a > greatest), 3000)
    return run.at


def load_steps(rng, seconds=4.0):
    """Load that changes by steps to up to twice its size, each with its dc part."""
    run = Run(rng, seconds)
    near = run.line.emf
    angle = cmath.phase(run.line.remote_emf / near)
    t = 0.3
    while t < seconds - 0.3:
        run.line.remote_emf = abs(run.line.remote_emf) * near / abs(near) * cmath.exp(1j * angle * rng.uniform(0.3, 2.0))
        run.begin(t)
        t += rng.uniform(0.3, 1.2)
    run.at.trigger = 0.1
    run.at.truth = {"kind": "load"}
    run.at.samples = run.course.samples(run.at.instants())
    return run.at


def healthy_reclose(rng):
    """A breaker closes onto a healthy line, each pole some milliseconds apart."""
    run = Run(rng, 0.8)
    run.course.stages.clear()
    run.begin(-1.0, open=(0, 1, 2))
    at = rng.uniform(0.2, 0.4)
    last = at
    for p, when in sorted(((p, at + rng.uniform(0, 0.003)) for p in range(3)), key=lambda it: it[1]):
        run.begin(when, open=tuple(q for q in run.open if q != p))
        last = when
    run.at.trigger = round(at, 6)
    run.at.contacts = {"closed": (0, [(last + 0.004, 1)]), "reclose": (0, [(at - 0.06, 1), (at + 0.1, 0)])}
    run.at.truth = {"kind": "reclose"}
    run.at.samples = run.course.samples(run.at.instants())
    return run.at


def opened_load(rng):
    """A breaker opens under load, without a fault."""
    run = Run(rng, 0.7)
    at = rng.uniform(0.2, 0.4)
    opened = run.open_poles((0, 1, 2), at)
    run.at.trigger = round(at, 6)
    run.at.contacts = {"closed": (1, [(max(opened.values()) + 0.003, 0)])}
    run.at.truth = {"kind": "opening"}
    run.at.samples = run.course.samples(run.at.instants())
    return run.at


def drift(rng, seconds=10.0):
    """Frequency that falls or rises by up to 1 Hz a second, to 2 Hz, and comes back."""
    run = Run(rng, seconds, off_nominal=0.1)
    _, voltages, currents, _, _ = run.course.stages[0]
    slope = rng.choice([-1, 1]) * rng.uniform(0.2, 1.0)
    angle, rows = 0.0, []
    for t in run.at.instants():
        away = slope * min(t, 2, max(0.0, 6 - t)) if t < 6 else 0.0
        angle += 2 * math.pi * (run.frequency + away) / run.at.rate
        turn = math.sqrt(2) * cmath.exp(1j * angle)
        rows.append([(x * turn).real for x in [*voltages, *currents]])
    run.at.trigger = 0.1
    run.at.samples, run.at.truth = rows, {"kind": "drift"}
    return run.at


def inrush(rng):
    """A transformer is energised: the flux of each phase goes on from a remanence, with a decaying offset."""
    run = Run(rng, 0.9)
    at = rng.uniform(0.15, 0.3)
    _, voltages, _, _, _ = run.course.stages[0]
    w, tau, knee = run.course.w, rng.uniform(0.15, 0.6), rng.uniform(1.1, 1.25)
    peak = run.at.amps * rng.uniform(1.0, 4.0)
    rest = rng.uniform(-0.6, 0.6)
    remanence = [rest, -rest * rng.uniform(0.3, 0.7), 0]
    remanence[2] = -remanence[0] - remanence[1]
    angles = [cmath.phase(v) for v in voltages]
    rows = []
    for t in run.at.instants():
        u = [(math.sqrt(2) * v * cmath.exp(1j * w * t)).real for v in voltages]
        i = [0.0] * 3
        for p in range(3):
            if t >= at:
                offset = remanence[p] - math.sin(w * at + angles[p])
                flux = math.sin(w * t + angles[p]) + offset * math.exp(-(t - at) / tau)
                i[p] = peak * math.copysign(max(0.0, abs(flux) - knee), flux) + 0.01 * run.at.amps * math.sin(w * t + angles[p] - 1.5)
        rows.append(u + i)
    run.at.trigger = round(at, 6)
    run.at.contacts = {"closed": (0, [(at + 0.005, 1)])}
    run.at.samples, run.at.truth = rows, {"kind": "inrush"}
    return run.at


QUIET = [load_steps, drift, inrush, healthy_reclose, opened_load]
