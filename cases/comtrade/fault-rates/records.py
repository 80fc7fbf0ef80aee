"""Clean faults at 50 Hz, without noise and dc: at rates of which a cycle has a whole number of rows, or none; of a line that was dead before; without
voltages; faults that begin within the first cycle of a rate; and load that rises."""

import cmath
import math
import sys

TURN = cmath.exp(-2j * math.pi / 3)
PHASES = (1, TURN, TURN * TURN)
LAG = cmath.rect(1, math.radians(-70))


def balanced(size):
    return [size * phase for phase in PHASES]


# what the voltages (1 before) and the currents (1 before) are in a fault
AG = ([0.6, TURN, TURN * TURN], [1 + 10 * LAG, TURN, TURN * TURN])
BC = ([1, -0.5 - 0.52j, -0.5 + 0.52j], [1, TURN + 10j * -LAG, TURN * TURN - 10j * -LAG])
ABC = (balanced(0.5), balanced(10 * LAG))
DEAD, LOAD = [0, 0, 0], balanced(1)


def write(folder, name, rates, begin, fault, before=(LOAD, LOAD), has_volts=True, contacts=()):
    """A pair with these rates, each as (samples a second, number of its last row), whose fault begins in a row, counted from 0."""
    ids = [("U" + p, p, "kV") for p in "ABC" if has_volts] + [("I" + p, p, "A") for p in "ABC"]
    head = ["Hill,Bay,1999", f"{len(ids) + len(contacts)},{len(ids)}A,{len(contacts)}D"]
    for n, (id, phase, unit) in enumerate(ids, 1):
        head.append(f"{n},{id},{phase},Line,{unit},0.01,0,0,-99999,99999,1,1,P")
    head += [f"{n},{id},,,0" for n, (id, _) in enumerate(contacts, 1)]
    head += ["50", str(len(rates))] + [f"{rate},{end}" for rate, end in rates]
    head += ["01/03/2026,10:00:00.000000", "01/03/2026,10:00:00.000000", "ASCII", "1"]
    rows, t = [], 0
    for row in range(rates[-1][1]):
        volts, amps = before if row < begin else fault
        turn = cmath.exp(2j * math.pi * 50 * t + 0.4j)
        values = [100 * v for v in volts if has_volts] + [40 * i for i in amps]
        samples = [round(100 * (v * turn).real) for v in values]
        bits = [int(since <= row) for _, since in contacts]
        rows.append(",".join(map(str, [row + 1, round(t * 1e6), *samples, *bits])))
        t += 1 / next(rate for rate, end in rates if row < end)
    with open(f"{folder}/{name}.cfg", "w", newline="", encoding="ascii") as file:
        file.write("".join(line + "\r\n" for line in head))
    with open(f"{folder}/{name}.dat", "w", newline="", encoding="ascii") as file:
        file.write("".join(line + "\r\n" for line in rows))


def main():
    folder = sys.argv[1]
    for rate in (1000, 1020, 4799):
        for name, fault in (("AG", AG), ("BC", BC), ("ABC", ABC)):
            write(folder, f"{rate}-{name}", [(rate, rate // 5)], rate // 10, fault)
    names = [("No trip", 105), ("Tripod", 110), ("General_Trip", 120)]
    write(folder, "words", [(1000, 200)], 100, AG, contacts=names)
    write(folder, "dead", [(1000, 200)], 100, ABC, before=(DEAD, DEAD))
    write(folder, "blind", [(1000, 200)], 100, AG, has_volts=False)
    write(folder, "at-first", [(1000, 200)], 10, AG)
    write(folder, "at-change", [(1000, 100), (2000, 300)], 110, AG)
    write(folder, "later", [(1000, 200)], 65, AG)
    for name, has_volts in (("load", True), ("load-blind", False)):
        write(folder, name, [(1000, 200)], 100, (LOAD, balanced(1.6)), has_volts=has_volts)


main()
