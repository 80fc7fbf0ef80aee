"""Scenarios as pairs of 1999, as different makers name and scale their channels."""

import math
import struct
from datetime import datetime, timedelta

MAKERS = [
    (("UA", "UB", "UC"), ("IA", "IB", "IC"), "ABC", ("Pickup", "Trip", "CB closed", "AR close")),
    (("VA", "VB", "VC"), ("IL1", "IL2", "IL3"), "ABC", ("START", "TRIP", "52A", "79 close")),
    (("U L1-E", "U L2-E", "U L3-E"), ("I L1", "I L2", "I L3"), ("L1", "L2", "L3"), ("General start", "General trip", "CB closed", "AR close cmd")),
    (("Va", "Vb", "Vc"), ("Ia", "Ib", "Ic"), ("", "", ""), ("Z1 start", "Trip Z1", "CB open", "Reclose")),
]
CLOCK = "%d/%m/%Y,%H:%M:%S.%f"


class Maker:
    """One maker's names, sides, ranges and noise."""

    def __init__(self, rng, scenario):
        self.volt_names, self.amp_names, self.phases, self.contacts = rng.choice(MAKERS)
        self.bits = rng.choice([12, 14, 16, 16, 16])
        self.is_secondary = rng.random() < 0.3
        self.one_amp = rng.choice([1, 5])
        self.range = rng.choice([20, 30, 40])  # times the nominal current
        self.noise = rng.choice([0.0002, 0.001, 0.003])
        self.currents_first = rng.random() < 0.3
        self.has_volts, self.has_contacts = rng.random() < 0.94, rng.random() < 0.9
        self.has_earth = rng.random() < 0.3
        self.binary = rng.random() < 0.5
        self.scenario = scenario

    def channels(self):
        """Name, phase, unit, primary, secondary, full range in primary units, which sample, divisor."""
        it, phase_volts = self.scenario, self.scenario.volts / math.sqrt(3)
        u = 1000.0 if not self.is_secondary else it.volts / 100
        i = 1.0 if not self.is_secondary else it.amps / self.one_amp
        unit = "V" if self.is_secondary else "kV"
        volts = [(n, p, unit, it.volts, 100, 2 * math.sqrt(2) * phase_volts, k, u) for k, (n, p) in enumerate(zip(self.volt_names, self.phases))]
        full = self.range * math.sqrt(2) * it.amps
        amps = [(n, p, "A", it.amps, self.one_amp, full, 3 + k, i) for k, (n, p) in enumerate(zip(self.amp_names, self.phases))]
        if self.has_earth:
            amps.append((self.amp_names[0][0] + "N", "N" if self.phases[0] else "", "A", it.amps, self.one_amp, full, None, i))
        volts = volts if self.has_volts else []
        return amps + volts if self.currents_first else volts + amps


def scaled(rng, maker, channels, row):
    """The row's samples as whole numbers: with noise, rounded, cut at the range."""
    top = 2 ** (maker.bits - 1) - 1
    out = []
    for _, _, _, primary, _, full, k, _ in channels:
        value = sum(row[3:6]) if k is None else row[k]
        value += rng.gauss(0, maker.noise * (primary if k is None or k >= 3 else primary / math.sqrt(3)))
        out.append(max(-top, min(top, round(value / full * top))))
    return out


def bit_at(contact, t):
    state = contact[0]
    for when, now in contact[1]:
        if when <= t:
            state = now
    return state


def head_of(maker, channels, names, begun, station):
    it = maker.scenario
    top = 2 ** (maker.bits - 1) - 1
    side = "S" if maker.is_secondary else "P"
    lines = [f"{station},Line,1999", f"{len(channels) + len(names)},{len(channels)}A,{len(names)}D"]
    for n, (name, phase, unit, primary, secondary, full, _, divisor) in enumerate(channels, 1):
        lines.append(f"{n},{name},{phase},Line,{unit},{full / top / divisor:.9g},0,0,{-top},{top},{primary:g},{secondary},{side}")
    for n, (name, is_inverse, contact) in enumerate(names, 1):
        lines.append(f"{n},{name},,,{contact[0] ^ is_inverse}")
    trigger = begun + timedelta(microseconds=round(it.trigger * 1e6))
    kind = "BINARY" if maker.binary else "ASCII"
    return lines + [str(it.nominal), "1", f"{it.rate},{it.rows}", begun.strftime(CLOCK), trigger.strftime(CLOCK), kind, "1"]


def data_of(rng, maker, channels, names):
    it, out = maker.scenario, []
    for n, (t, row) in enumerate(zip(it.instants(), it.samples)):
        samples = scaled(rng, maker, channels, row)
        bits = [bit_at(contact, t) ^ is_inverse for _, is_inverse, contact in names]
        if maker.binary:
            words = [sum(b << k for k, b in enumerate(bits[w:w + 16])) for w in range(0, len(bits), 16)]
            out.append(struct.pack(f"<II{len(samples)}h{len(words)}H", n + 1, round(t * 1e6), *samples, *words))
        else:
            out.append((",".join(map(str, [n + 1, round(t * 1e6), *samples, *bits])) + "\r\n").encode())
    return b"".join(out)


def write_pair(rng, scenario, path, begun, station):
    """Writes PATH.cfg and PATH.dat; what is true of the record, in its own words."""
    maker = Maker(rng, scenario)
    channels = maker.channels()
    roles = ("start", "trip", "closed", "reclose")
    names = []
    if maker.has_contacts:
        for role, name in zip(roles, maker.contacts):
            if role in scenario.contacts:
                names.append((name, int(name == "CB open"), scenario.contacts[role]))
    with open(path + ".cfg", "w", newline="", encoding="ascii") as file:
        file.write("".join(line + "\r\n" for line in head_of(maker, channels, names, begun, station)))
    with open(path + ".dat", "wb") as file:
        file.write(data_of(rng, maker, channels, names))
    return {
        **scenario.truth,
        "rate": scenario.rate,
        "nominal": scenario.nominal,
        "trigger": (begun + timedelta(microseconds=round(scenario.trigger * 1e6))).isoformat(sep=" ", timespec="microseconds"),
        "has_volts": maker.has_volts,
        "contacts": [name for name, _, _ in names],
        "bits": maker.bits,
        "noise": maker.noise,
    }


def begun_at(rng):
    return datetime(2026, 3, 1) + timedelta(microseconds=rng.randrange(10**13))
