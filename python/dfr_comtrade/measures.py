"""What is measured of analogue channels: rms values, phasors, harmonics. The library measures; this module finds rows and turns phasors."""
import ctypes
import datetime
import math
from typing import TYPE_CHECKING, List, NamedTuple, Optional, Union

from . import _library as c
from .errors import need

if TYPE_CHECKING:
    from .record import _Kept

Moment = Union[float, datetime.datetime]
Reference = Union[int, str, None]
_EPOCH = datetime.datetime(1970, 1, 1)
_NONE = complex(math.nan, math.nan)


class Measure(NamedTuple):
    """What is measured of a channel over whole cycles, in its unit. The fundamental is `phasor`: an rms value, and an angle, that of a cosine
    at row `first`; None stands for an angle without meaning. `dc` is a mean; `fall` is how far the dc part falls over the rows where it
    decays, else None. `residual` is the rms value of what the fit leaves. `orders` has the rms values of the orders 1, 2, .."""

    rms: float
    phasor: complex
    has_angle: bool
    dc: float
    fall: Optional[float]
    peak: float
    peak_row: int
    residual: float
    orders: List[float]
    first: int
    rows: int


def row_at(kept: "_Kept", at: Moment) -> int:
    """The last row that is not after a moment. Raises ValueError."""
    if isinstance(at, datetime.datetime):
        passed = at - _EPOCH - datetime.timedelta(microseconds=kept.head.first)
        nanos = passed // datetime.timedelta(microseconds=1) * 1000
    else:
        nanos = round(at * 1e9)
    times = kept.of_rows("times", "q")
    if len(times) and nanos <= times[-1]:
        for row in range(len(times) - 1, -1, -1):
            if c.NO_TIME < times[row] <= nanos:
                return row
    raise ValueError(f"the moment {at} is outside the record")


def _wanted(answer: int) -> None:
    if answer == c.NO_MEASURE:
        raise ValueError(c.library.comtrade_answer_text(answer).decode())
    need(answer)


def measured(kept: "_Kept", channel: int, row: int, cycles: int) -> Measure:
    """What is measured of a channel over the last whole cycles that end with a row. Raises ValueError."""
    if not 0 < cycles < 2**32:
        raise ValueError(f"cycles is a number from 1 on, not {cycles}")
    found = c.Measure()
    _wanted(c.library.comtrade_measure(kept.at, channel, row, cycles, ctypes.byref(found)))
    return Measure(
        found.rms, complex(found.re, found.im), found.has_angle, found.dc, None if math.isnan(found.fall) else found.fall, found.peak,
        found.peak_row, found.residual, list(found.order[: found.orders]), found.first, found.rows,
    )


def rms_over(kept: "_Kept", channel: int, first: int, count: int) -> float:
    """The rms value of a channel over so many rows. Raises ValueError."""
    if not 0 <= first <= first + count <= kept.rows:
        raise ValueError(f"the record has no {count} rows from row {first} on")
    found = ctypes.c_double()
    _wanted(c.library.comtrade_rms(kept.at, channel, first, count, ctypes.byref(found)))
    return found.value


def _number_of(kept: "_Kept", reference: Union[int, str]) -> int:
    ids = [kept.text(c.ANALOG_ID, k) for k in range(kept.head.analog)]
    if isinstance(reference, int):
        return range(len(ids))[reference]
    if reference not in ids:
        raise ValueError(f"there is no analogue channel {reference!r}")
    return ids.index(reference)


def _tried(kept: "_Kept", channel: int, row: int, cycles: int) -> Optional[Measure]:
    try:
        return measured(kept, channel, row, cycles)
    except ValueError:
        return None


def _turn(kept: "_Kept", row: int, cycles: int, reference: Reference) -> complex:
    """What turns phasors so that the reference has the angle 0. Raises ValueError."""
    if reference is not None:
        found: Optional[Measure] = measured(kept, _number_of(kept, reference), row, cycles)
    else:
        tried = (_tried(kept, channel, row, cycles) for channel in range(kept.head.analog))
        found = next((measure for measure in tried if measure is not None and measure.has_angle), None)
    if found is None or not found.has_angle:
        raise ValueError("the reference has no angle: a reading is missing, or it has no fundamental")
    return found.phasor.conjugate() / abs(found.phasor)


def _turned(measure: Optional[Measure], turn: complex) -> complex:
    if measure is None:
        return _NONE
    return measure.phasor * turn if measure.has_angle else complex(abs(measure.phasor), math.nan)


def phasor(kept: "_Kept", channel: int, at: Moment, cycles: int, reference: Reference) -> complex:
    """The fundamental of a channel over the last whole cycles that end at a moment, turned so that the reference has the angle 0."""
    row = row_at(kept, at)
    return _turned(measured(kept, channel, row, cycles), _turn(kept, row, cycles, reference))


def phasors(kept: "_Kept", at: Moment, cycles: int, reference: Reference) -> List[complex]:
    """The same of all channels; a NaN for each that misses a sample."""
    row = row_at(kept, at)
    turn = _turn(kept, row, cycles, reference)
    return [_turned(_tried(kept, channel, row, cycles), turn) for channel in range(kept.head.analog)]
