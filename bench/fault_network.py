"""A single line between two sources, in phasors: what the end S measures, stage by stage, with a decaying dc part.

Currents are continuous at each change of stage, since the line is an inductance: what a steady current jumps by, a dc part takes up, which
decays with the time constant of the loop. Voltages are those of the steady state. A pole that opens does so at its current's next zero.
"""

import cmath
import math

TURN = cmath.exp(2j * math.pi / 3)
PHASES = (1, TURN.conjugate(), TURN)


def balanced(emf):
    return [emf * turn for turn in PHASES]


def matrix(z1, z0):
    """Phase impedances from positive and zero sequence."""
    own, mutual = (z0 + 2 * z1) / 3, (z0 - z1) / 3
    return [[own if i == k else mutual for k in range(3)] for i in range(3)]


def sum_of(a, b):
    return [[x + y for x, y in zip(p, q)] for p, q in zip(a, b)]


def inverse(m):
    """By Gauss and Jordan, with the greatest pivot."""
    n = len(m)
    rows = [list(row) + [complex(i == k) for k in range(n)] for i, row in enumerate(m)]
    for i in range(n):
        best = max(range(i, n), key=lambda k: abs(rows[k][i]))
        rows[i], rows[best] = rows[best], rows[i]
        rows[i] = [x / rows[i][i] for x in rows[i]]
        for k in range(n):
            if k != i:
                rows[k] = [x - rows[k][i] * y for x, y in zip(rows[k], rows[i])]
    return [row[n:] for row in rows]


def times(m, v):
    return [sum(x * y for x, y in zip(row, v)) for row in m]


def admittance_of(z, open_poles):
    """The admittance of three coupled branches of which these are open."""
    closed = [i for i in range(3) if i not in open_poles]
    small = inverse([[z[i][k] for k in closed] for i in closed]) if closed else []
    return [[small[closed.index(i)][closed.index(k)] if i in closed and k in closed else 0 for k in range(3)] for i in range(3)]


def fault_admittance(phases, with_earth, arc, earth):
    """The phases meet in a star point through an arc each; from there to earth, where the fault has earth."""
    if not phases:
        return [[0] * 3 for _ in range(3)]
    g = [1 / max(arc, 1e-3) if i in phases else 0 for i in range(3)]
    whole = sum(g) + (1 / max(earth, 1e-3) if with_earth else 0)
    return [[(g[i] if i == k else 0) - g[i] * g[k] / whole for k in range(3)] for i in range(3)]


class Line:
    """Two sources and a line: sequence impedances (z1, z0) of source S, the line, source R; the emf of both."""

    def __init__(self, source, line, remote, emf, remote_emf):
        self.source, self.line, self.remote = source, line, remote
        self.emf, self.remote_emf = emf, remote_emf

    def measured(self, m=0.5, fault=None, open_poles=(), remote_open=False):
        """Voltages of the busbar at S and currents into the line, with a fault at m of its length: (phases, earth, arc, resistance)."""
        part = lambda of, k: [k * x for x in of]
        near = sum_of(matrix(*self.source), matrix(*part(self.line, m)))
        far = sum_of(matrix(*self.remote), matrix(*part(self.line, 1 - m)))
        y_near = admittance_of(near, open_poles)
        y_far = admittance_of(far, (0, 1, 2) if remote_open else ())
        leak = [[1e-9 if i == k else 0 for k in range(3)] for i in range(3)]
        y_fault = fault_admittance(*(fault or ((), False, 0, 0)))
        e_near, e_far = balanced(self.emf), balanced(self.remote_emf)
        driven = [a + b for a, b in zip(times(y_near, e_near), times(y_far, e_far))]
        at_fault = times(inverse(sum_of(sum_of(y_near, y_far), sum_of(y_fault, leak))), driven)
        currents = times(y_near, [e - v for e, v in zip(e_near, at_fault)])
        drop = times(matrix(*self.source), currents)
        return [e - d for e, d in zip(e_near, drop)], currents

    def time_constant(self, m, fault, frequency):
        """L/R of the loop from S through the fault."""
        z1 = self.source[0] + m * self.line[0]
        loop = z1 + (fault[2] if fault else 0)
        if fault and len(fault[0]) == 1:
            loop = 2 * z1 + self.source[1] + m * self.line[1] + 3 * fault[3]
        return min(0.15, max(0.002, loop.imag / (2 * math.pi * frequency * max(loop.real, 1e-6))))


class Course:
    """The stages of a record, in time: since when, voltages, currents, dc parts at that time, and their time constant."""

    def __init__(self, frequency):
        self.w = 2 * math.pi * frequency
        self.stages = []

    def current(self, phase, t, stage):
        since, _, currents, dc, tau = stage
        steady = math.sqrt(2) * (currents[phase] * cmath.exp(1j * self.w * t)).real
        return steady + dc[phase] * math.exp(-max(t - since, 0) / tau)

    def begin(self, at, measured, tau, open_poles=()):
        """A new stage; currents go on from where they are, but for the poles that are open."""
        voltages, currents = measured
        dc = [0.0] * 3
        if self.stages:
            for p in range(3):
                if p not in open_poles and abs(currents[p]) >= 1e-3:
                    steady = math.sqrt(2) * (currents[p] * cmath.exp(1j * self.w * at)).real
                    dc[p] = self.current(p, at, self.stages[-1]) - steady
        self.stages.append((at, voltages, currents, dc, tau))

    def next_zero(self, phase, after, limit=0.06):
        """When the current of the last stage next crosses zero; where it is none at all, at once."""
        stage = self.stages[-1]
        step = 2e-5
        before = self.current(phase, after, stage)
        if abs(stage[2][phase]) < 1e-3 and abs(stage[3][phase]) < 1e-3:
            return after
        for k in range(1, int(limit / step)):
            now = self.current(phase, after + k * step, stage)
            if before * now <= 0:
                return after + (k - 1 + (before / (before - now) if before != now else 1)) * step
            before = now
        return after + limit

    def samples(self, instants):
        """Three voltages and three currents at each instant."""
        rows, i = [], 0
        for t in instants:
            while i + 1 < len(self.stages) and self.stages[i + 1][0] <= t:
                i += 1
            since, voltages, currents, dc, tau = self.stages[i]
            turn = math.sqrt(2) * cmath.exp(1j * self.w * t)
            fall = math.exp(-max(t - since, 0) / tau)
            rows.append([(v * turn).real for v in voltages] + [(c * turn).real + d * fall for c, d in zip(currents, dc)])
        return rows
