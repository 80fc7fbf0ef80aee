#!/usr/bin/env python3
"""Prints the script of a single-phase-to-earth fault on a 110 kV line, as a recorder in the line's bay samples it.

The line carries load. At FAULT phase A touches earth; at DEVELOPED the arc reaches phase B. The protection starts, trips, and
the breaker interrupts each phase at a zero of its current. Run it as `./generate.py > script`.
"""
import math

FREQUENCY = 50.0  # Hz
RATE = 4800  # scans a second, so 96 a cycle
SCANS = 1920  # 400 ms
START = 1_719_829_800_250_000  # 2024-07-01 10:30:00.250000, in microseconds since 1970-01-01

VOLTAGE = 110e3 / math.sqrt(3) * math.sqrt(2)  # peak of a phase voltage, V
LOAD = 200.0 * math.sqrt(2)  # peak of the load current, A
LOAD_ANGLE = math.radians(-25)
EARTH_FAULT = 3000.0 * math.sqrt(2)  # peak of the fault current of one phase, A
TWO_PHASE_FAULT = 4200.0 * math.sqrt(2)  # and of two
LINE_ANGLE = math.radians(-78)
DECAY = 0.040  # s, of the direct component
SAG = 0.30  # of the voltage of a faulted phase, at the bay
NOISE = 3  # counts

FAULT = 0.1000  # s, phase A to earth
STARTED = 0.1210  # protection
DEVELOPED = 0.1520  # phase B too
TRIPPED = 0.1735
OPENED = 0.2205  # the breaker's main contacts part
REPORTED = 0.2240  # its auxiliary contact for "open"

VOLTS_PER_COUNT = 10.0  # written as 0.01 kV
AMPERES_PER_COUNT = 0.5

PHASES = {"A": 0.0, "B": math.radians(-120), "C": math.radians(120)}

HEAD = """\
# A single-phase-to-earth fault that develops, on a 110 kV line: made by generate.py
station Northfield 110 kV
device Bay 3 DFR
analog UA,A,Line 3,kV,0.01,0,0,-20000,20000,110000,100,P
analog UB,B,Line 3,kV,0.01,0,0,-20000,20000,110000,100,P
analog UC,C,Line 3,kV,0.01,0,0,-20000,20000,110000,100,P
analog UN,N,Line 3,kV,0.01,0,0,-30000,30000,110000,100,P
analog IA,A,Line 3,A,0.5,0,0,-32767,32767,600,1,P
analog IB,B,Line 3,A,0.5,0,0,-32767,32767,600,1,P
analog IC,C,Line 3,A,0.5,0,0,-32767,32767,600,1,P
analog IN,N,Line 3,A,0.5,0,0,-32767,32767,600,1,P
status Breaker closed,,Q0,1
status Breaker open,,Q0,0
status Earth fault start,,F21,0
status Trip,,F21,0
freq 50
rate 4800
start %d
# 50 ms before the trigger, 100 ms after the last one, at most 250 ms
limits 240,480,1200,2
# residual current of 600 A either way, phase current B of 2,000 A either way, trip, breaker leaves "closed"
rules level 7 over 1200; level 7 under -1200; level 5 over 4000; level 5 under -4000; edge 3 rise; edge 0 fall
go
"""


class Noise:
    """The same small noise at each run."""

    def __init__(self):
        self.state = 12345

    def next(self):
        self.state = (self.state * 1103515245 + 12345) % 2**31
        return self.state * (2 * NOISE + 1) // 2**31 - NOISE


def fault_current(time, begun, peak, angle):
    """A sine that begins at zero, by a direct component that decays."""
    since = time - begun
    turn = 2 * math.pi * FREQUENCY
    offset = math.cos(turn * begun + angle + LINE_ANGLE)
    return peak * (math.cos(turn * time + angle + LINE_ANGLE) - offset * math.exp(-since / DECAY))


def current(phase, time):
    """The current of a phase while the breaker is closed, in A."""
    angle = PHASES[phase]
    load = LOAD * math.cos(2 * math.pi * FREQUENCY * time + angle + LOAD_ANGLE)
    if phase == "A" and time >= FAULT:
        single = fault_current(time, FAULT, EARTH_FAULT, angle)
        if time < DEVELOPED:
            return load + single
        grown = fault_current(time, DEVELOPED, TWO_PHASE_FAULT - EARTH_FAULT, angle)
        return load + single + grown
    if phase == "B" and time >= DEVELOPED:
        return load + fault_current(time, DEVELOPED, TWO_PHASE_FAULT, angle)
    return load


def voltage(phase, time, open_phases):
    """The voltage of a phase at the bay, in V."""
    faulted = (phase == "A" and time >= FAULT) or (phase == "B" and time >= DEVELOPED)
    size = SAG if faulted and phase not in open_phases else 1.0
    return VOLTAGE * size * math.cos(2 * math.pi * FREQUENCY * time + PHASES[phase])


def scans():
    noise = Noise()
    open_phases = set()
    before = {phase: current(phase, 0.0) for phase in PHASES}
    for k in range(SCANS):
        time = k / RATE
        currents = {}
        for phase in PHASES:
            flow = current(phase, time)
            if time >= OPENED and flow * before[phase] <= 0:
                open_phases.add(phase)
            before[phase] = flow
            currents[phase] = 0.0 if phase in open_phases else flow
        voltages = {phase: voltage(phase, time, open_phases) for phase in PHASES}
        counts = [voltages[p] / VOLTS_PER_COUNT for p in "ABC"]
        counts.append(sum(voltages.values()) / VOLTS_PER_COUNT)
        counts += [currents[p] / AMPERES_PER_COUNT for p in "ABC"]
        counts.append(sum(currents.values()) / AMPERES_PER_COUNT)
        bits = [time < OPENED, time >= REPORTED, STARTED <= time < 0.2500, TRIPPED <= time < 0.2600]
        yield [round(x) + noise.next() for x in counts], [int(bit) for bit in bits]


def main():
    print(HEAD % START, end="")
    for values, bits in scans():
        print("scan %s/%s" % (",".join(map(str, values)), ",".join(map(str, bits))))
    print("take")
    print("take")


main()
