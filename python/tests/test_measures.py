"""Rms values, phasors and harmonics, by values that are computed here."""
import cmath
import datetime
import math

import dfr_comtrade
import pytest

FIRST = datetime.datetime(2024, 2, 29, 12)


def made(rate, freq, waves, rows, skew=0.0, lost=()):
    """A record of waves, each a function of the angle of the fundamental."""
    analog = []
    for number, (name, wave) in enumerate(waves):
        samples = [round(20000 * wave(math.tau * k * freq / rate)) for k in range(rows)]
        samples = [dfr_comtrade.NO_SAMPLE if (number, k) in lost else x for k, x in enumerate(samples)]
        analog.append(dfr_comtrade.Analog(name, samples, unit="A", a=0.005, skew=skew if number else 0.0))
    rates = [(rate, rows)]
    return dfr_comtrade.read_bytes(*dfr_comtrade.write_bytes(analog, [], first=FIRST, rates=rates, line_freq=freq), exact=True)


def wave(size, degrees, dc=0.0, third=0.0):
    return lambda angle: dc + size * math.cos(angle + math.radians(degrees)) + third * math.cos(3 * angle)


def rms_of(values):
    return math.sqrt(math.fsum(value * value for value in values) / len(values))


@pytest.mark.parametrize("rate, freq, rows", [(1000.0, 50.0, 20), (4000.0, 60.0, 66), (1600.0, 16.7, 95), (960.0, 50.0, 19)])
def test_one_cycle(rate, freq, rows):
    waves = [("UA", wave(1.0, 30.0)), ("IA", wave(0.5, -25.0, dc=0.1, third=0.05)), ("I0", lambda angle: 0.25)]
    record = made(rate, freq, waves, 3 * rows + 5)
    at = record.times[2 * rows + 3]
    for channel, rms in zip(record.analog, (50 * math.sqrt(2), math.sqrt(10.0**2 + 50.0**2 / 2 + 5.0**2 / 2), 25.0)):
        assert channel.rms(at=at) == pytest.approx(rms, rel=1e-4)
        assert channel.rms(at=FIRST + datetime.timedelta(seconds=float(at) + 1e-6)) == channel.rms(at=at)
        values = list(channel.values)[rows + 4 : 2 * rows + 4]
        assert channel.rms_over(rows + 4, rows) == pytest.approx(rms_of(values), rel=1e-15)
        found = channel.measure(at=at)
        assert (found.first, found.rows, found.fall) == (rows + 4, rows, None)
        sizes = [abs(value) for value in values]
        assert found.peak_row == rows + 4 + sizes.index(max(sizes)) and found.peak == channel.values[found.peak_row]
        if rows == 20:  # whole rows: the mean square over the cycle is that of its rows
            assert found.rms == pytest.approx(rms_of(values), rel=1e-12)
    current = record.analog["IA"].measure(at=at)
    assert current.dc == pytest.approx(10.0, abs=2e-3) and current.residual < 5e-3
    assert len(current.orders) == min(25, (rows - 1) // 2)
    assert current.orders[:4] == pytest.approx([50 / math.sqrt(2), 0.0, 5 / math.sqrt(2), 0.0], abs=5e-3)
    found = record.phasors(at=at)
    assert found[0] == pytest.approx(100 / math.sqrt(2), abs=2e-3)
    assert found[1] == pytest.approx(cmath.rect(50 / math.sqrt(2), math.radians(-55.0)), abs=5e-3)
    assert abs(found[2].real) < 1e-9 and math.isnan(found[2].imag)
    assert record.analog["IA"].phasor(at=at) == found[1]
    turned = record.analog["UA"].phasor(at=at, reference="IA")
    assert turned == pytest.approx(cmath.rect(100 / math.sqrt(2), math.radians(55.0)), abs=1e-2)
    assert turned == record.analog[0].phasor(at=at, reference=1)
    assert record.analog["IA"].phasor(at=at, cycles=2) == pytest.approx(found[1], abs=5e-3)


def test_a_skew_is_turned_back():
    record = made(4000.0, 50.0, [("UA", wave(1.0, 0.0)), ("IA", wave(1.0, 0.0))], 100, skew=1000.0)
    assert math.degrees(cmath.phase(record.analog[1].phasor(at=record.times[-1]))) == pytest.approx(-18.0, abs=1e-3)


def test_a_dc_part_that_decays():
    # (a current that begins at 0: its dc part is then the wave's first value, turned round)
    decays = [("IA", lambda angle: 0.4 * math.cos(angle - 1.0) - 0.4 * math.cos(1.0) * math.exp(-angle / (math.tau * 50 * 0.045)))]
    record = made(4800.0, 50.0, decays, 96)
    found = record.analog[0].measure(at=record.times[-1])
    assert abs(found.phasor) == pytest.approx(40 / math.sqrt(2), rel=0.01) and found.fall < -5
    assert math.degrees(cmath.phase(found.phasor)) == pytest.approx(math.degrees(-1.0), abs=0.3)


@pytest.mark.parametrize("rate, freq, rows, cycles", [(4800.0, 50.0, 96, 1), (960.0, 50.0, 19, 1), (960.0, 50.0, 57, 3), (4000.0, 60.0, 133, 2)])
def test_least_squares_of_another_library(rate, freq, rows, cycles):
    numpy = pytest.importorskip("numpy")
    made_of = numpy.random.default_rng(7).normal(size=(3, rows + 10))
    waves = [(f"I{k}", lambda angle, w=w: float(w[round(angle * rate / (math.tau * freq))]) / 5) for k, w in enumerate(made_of)]
    record = made(rate, freq, waves, rows + 10)
    for channel in record.analog:
        found = channel.measure(at=record.times[-1], cycles=cycles)
        values = numpy.array(channel.values)[10:]
        angles = math.tau * freq / rate * numpy.arange(rows)
        columns = [numpy.ones(rows)] + [wave(order * angles) for order in range(1, len(found.orders) + 1) for wave in (numpy.cos, numpy.sin)]
        parts, *_ = numpy.linalg.lstsq(numpy.array(columns).T, values, rcond=None)
        phasors = (parts[1::2] - 1j * parts[2::2]) / math.sqrt(2)
        left = values - numpy.array(columns).T @ parts
        assert (found.first, found.rows, found.fall) == (10, rows, None)
        assert found.dc == pytest.approx(parts[0], abs=1e-9) and found.phasor == pytest.approx(phasors[0], abs=1e-9)
        assert found.orders == pytest.approx(list(abs(phasors)), abs=1e-9)
        # (the root of what sums of squares leave: rounding alone leaves 1e-7 of a value there)
        assert found.residual == pytest.approx(math.sqrt(left @ left / rows), abs=1e-6)
        assert found.rms == pytest.approx(math.sqrt(parts[0] ** 2 + sum(abs(phasors) ** 2) + left @ left / rows), rel=1e-10)


def test_what_cannot_be_measured():
    record = made(1000.0, 50.0, [("UA", wave(1.0, 0.0)), ("IA", wave(1.0, 0.0))], 60, lost={(0, 30)})
    current, lost = record.analog["IA"], record.analog["UA"]
    assert math.isnan(record.phasors(at=0.045)[0].real) and record.phasors(at=0.045)[1].real > 70
    assert lost.rms(at=0.029) == pytest.approx(100 / math.sqrt(2), rel=1e-4)
    assert lost.rms_over(31, 20) == pytest.approx(100 / math.sqrt(2), rel=1e-4) and lost.rms_over(2, 1) > 0
    for call in (
        lambda: lost.rms(at=0.03), lambda: lost.phasor(at=0.049), lambda: current.phasor(at=0.045, reference="UA"),
        lambda: current.rms(at=0.018), lambda: current.rms(at=-0.001), lambda: current.rms(at=0.0591),
        lambda: current.rms(at=0.05, cycles=0), lambda: current.rms(at=0.05, cycles=3), lambda: current.phasor(at=0.05, reference="UB"),
        lambda: lost.rms_over(30, 1), lambda: current.rms_over(5, 0), lambda: current.rms_over(59, 2), lambda: current.rms_over(-1, 2),
    ):
        with pytest.raises(ValueError):
            call()
    assert current.rms(at=0.019) > 70 and current.rms(at=0.05, cycles=2) > 70
    still = made(1000.0, 0.0, [("UA", wave(1.0, 0.0))], 60)
    with pytest.raises(ValueError, match="no such measure"):
        still.analog[0].rms(at=0.05)
