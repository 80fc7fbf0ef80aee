"""Writes a record from arrays."""
import array
import ctypes
import datetime
from dataclasses import dataclass
from typing import Any, Optional, Sequence, Tuple, Union

from . import _files, _library as c
from .errors import need
from .record import Record, numpy

_EPOCH = datetime.datetime(1970, 1, 1)


@dataclass
class Analog:
    """An analogue channel to be written. The value of a sample x is a * x + b in `unit`; a missing sample is NO_SAMPLE."""

    id: str
    samples: Sequence[int]
    unit: str = "V"
    a: float = 1.0
    b: float = 0.0
    phase: str = ""
    component: str = ""
    skew: float = 0.0
    min: int = -32767
    max: int = 32767
    primary: float = 1.0
    secondary: float = 1.0
    on_secondary: bool = False


@dataclass
class Status:
    """A status channel to be written. `normal` is its bit in normal operation."""

    id: str
    bits: Sequence[int]
    phase: str = ""
    component: str = ""
    normal: int = 0


def _text(text: str) -> bytes:
    if "\0" in text:
        raise ValueError("a text contains a zero character")
    return text.encode("utf-8", "surrogateescape")


def _table(code: str, kind: str, columns: Sequence[Sequence[int]], rows: int) -> Any:
    """The columns as one table, row by row, and its address."""
    if any(len(column) != rows for column in columns):
        raise ValueError("channels and stamps have different lengths")
    if numpy is not None:
        table = numpy.empty((rows, len(columns)), kind)
        for k, column in enumerate(columns):
            found = numpy.asarray(column)
            if len(found) and not numpy.array_equal(found, found.astype(kind)):
                raise ValueError(f"a sample, bit or stamp does not fit in {kind}")
            table[:, k] = found
        return table, table.ctypes.data
    table = array.array(code, (int(x) for row in zip(*columns) for x in row))
    return table, table.buffer_info()[0]


def _micros(instant: datetime.datetime) -> int:
    return (instant.replace(tzinfo=None) - _EPOCH) // datetime.timedelta(microseconds=1)


def write_bytes(
    analog: Sequence[Any],
    status: Sequence[Any],
    *,
    first: datetime.datetime,
    trigger: Optional[datetime.datetime] = None,
    rates: Sequence[Tuple[float, int]] = (),
    stamps: Optional[Sequence[int]] = None,
    station: str = "",
    device: str = "",
    line_freq: float = 50.0,
    timemult: float = 1.0,
    binary: bool = True,
) -> Tuple[bytes, bytes]:
    """The bytes of the configuration file and of the data file of a record.

    `analog` and `status` are lists of Analog and Status. `rates` has a pair for each sampling rate: rows per second, and the number (from 1)
    of the last row at that rate; the last rate ends at the last row. Without rates, `stamps` gives the time of each row, in microseconds
    after multiplication by `timemult`. `trigger` is `first` by default. Raises WriteFault if no COMTRADE file can hold this, MemoryError,
    ValueError."""
    columns = [channel.samples for channel in analog]
    flags = [channel.bits for channel in status]
    rows = len((columns + flags + ([stamps] if stamps is not None else []) or [[]])[0])
    samples, samples_at = _table("i", "int32", columns, rows)
    bits, bits_at = _table("B", "uint8", flags, rows)
    marks, marks_at = _table("Q", "uint64", [stamps], rows) if stamps is not None else (None, None)
    setup = c.Setup(
        station=_text(station), device=_text(device), analog_count=len(columns), status_count=len(flags), rate_count=len(rates), rows=rows,
        stamps=marks_at, samples=samples_at, bits=bits_at, line_freq=line_freq, timemult=timemult, first=_micros(first),
        trigger=_micros(first if trigger is None else trigger), binary=binary,
    )
    setup.analog = (c.AnalogSetup * max(len(columns), 1))(*[
        c.AnalogSetup(*(_text(x) for x in (ch.id, ch.phase, ch.component, ch.unit)), ch.a, ch.b, ch.skew, ch.primary, ch.secondary, ch.min, ch.max, ch.on_secondary)
        for ch in analog
    ])
    setup.status = (c.StatusSetup * max(len(flags), 1))(*[
        c.StatusSetup(*(_text(x) for x in (ch.id, ch.phase, ch.component)), bool(ch.normal)) for ch in status
    ])
    setup.rates = (c.Rate * max(len(rates), 1))(*[c.Rate(samp=samp, endsamp=end) for samp, end in rates])
    return _written(setup)


def _written(setup: c.Setup) -> Tuple[bytes, bytes]:
    fault, out = c.Fault(), [(ctypes.POINTER(ctypes.c_uint8)(), ctypes.c_size_t()) for _ in range(2)]
    (cfg, cfg_length), (dat, dat_length) = out
    refs = [ctypes.byref(x) for x in (cfg, cfg_length, dat, dat_length)]
    need(c.library.comtrade_write(ctypes.byref(setup), *refs, ctypes.byref(fault)), fault)
    try:
        return ctypes.string_at(cfg, cfg_length.value), ctypes.string_at(dat, dat_length.value)
    finally:
        c.library.comtrade_free(cfg)
        c.library.comtrade_free(dat)


def write(
    path: _files.Name, record: Union[Record, Sequence[Any]], status: Sequence[Any] = (), *, overwrite: bool = False, **setup: Any
) -> None:
    """Writes a record as `path` with the endings .cfg and .dat. `path` may already have one of them, in upper or lower case; other dots stay:
    "x", "x.cfg" and "x.DAT" all mean x.cfg and x.dat. `record` is either a record that has been read, or a list of Analog (then `status` is
    a list of Status). Keyword arguments are those of `write_bytes`; they take precedence over the record.

    If one of both files exists, FileExistsError names it and nothing changes; `overwrite=True` replaces both. If writing fails, the new
    files are removed and the old ones put back. Raises the exceptions of `write_bytes`, and OSError."""
    names = _files.new_pair(path, overwrite)
    analog: Sequence[Any]
    if isinstance(record, Record):
        known = {
            "first": record.first, "trigger": record.trigger, "rates": record.rates if record.nrates else (), "stamps": record.stamps,
            "station": record.station, "device": record.device, "line_freq": record.line_freq, "timemult": record.timemult, "binary": record.binary,
        }
        analog, status, setup = record.analog, record.status, {**known, **setup}
    else:
        analog = record
    cfg, dat = write_bytes(analog, status, **setup)
    _files.save_pair(names, cfg, dat, overwrite)
