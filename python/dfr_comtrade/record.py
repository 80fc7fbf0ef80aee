"""A record that has been read, and its channels."""
import array
import ctypes
import datetime
import importlib
from typing import Any, Dict, Iterator, List, NamedTuple, Sequence, TypeVar, Union, overload

from . import _library as c, measures
from .errors import need


def _optional(name: str) -> Any:
    """A module, or None if it is not installed."""
    try:
        return importlib.import_module(name)
    except ImportError:
        return None


numpy = _optional("numpy")

_EPOCH = datetime.datetime(1970, 1, 1)
_NUMBERS = {"i": "int32", "d": "float64", "B": "uint8", "Q": "uint64", "q": "int64"}
_TYPES: Dict[str, Any] = {"i": ctypes.c_int32, "d": ctypes.c_double, "B": ctypes.c_uint8}
# Larger tables (in bytes) are read one channel at a time.
_MOST = 1 << 30
# A block of rows with this many samples or bits stays in the cache of the processor.
_BLOCK = 1 << 17


def _tables(code: str, tables: int, count: int) -> List[Any]:
    """`tables` arrays of `count` numbers: of numpy if it is installed, else of `array.array`."""
    if numpy is not None:
        return list(numpy.empty((tables, count), _NUMBERS[code]))
    return [array.array(code, [0]) * count for _ in range(tables)]


def _place(table: Any) -> Any:
    """The address of the numbers of an array; None if it is empty."""
    if not len(table):
        return None
    return table.ctypes.data if numpy is not None else table.buffer_info()[0]


class Rate(NamedTuple):
    """A sampling rate in rows per second, and the number (from 1) of the last row sampled at it."""

    samp: float
    endsamp: int


class Event(NamedTuple):
    """A change of a status channel: the row (from 0) that has another bit than the one before it, its time in seconds since the first
    row, the channel, and its new bit."""

    row: int
    time: float
    channel: "StatusChannel"
    bit: int


def _changes_of(bits: Any) -> List[int]:
    """The rows whose bit is not that of the row before."""
    if numpy is not None:
        return [int(row) + 1 for row in numpy.flatnonzero(bits[1:] != bits[:-1])]
    return [row for row in range(1, len(bits)) if bits[row] != bits[row - 1]]


class _Kept:
    """The record in the library. It is closed when the `Record` and all its channels are gone."""

    def __init__(self, at: ctypes.c_void_p):
        self.at = at
        self.head = c.Head()
        need(c.library.comtrade_head(at, ctypes.byref(self.head)))
        self.rows: int = self.head.rows
        self._columns: Dict[str, Dict[int, Any]] = {}
        self._of_rows: Dict[str, Any] = {}

    def __del__(self) -> None:
        c.library.comtrade_close(self.at)

    def text(self, which: int, channel: int) -> str:
        needed = ctypes.c_size_t()
        c.library.comtrade_text(self.at, which, channel, None, 0, ctypes.byref(needed))
        text = ctypes.create_string_buffer(needed.value + 1)
        need(c.library.comtrade_text(self.at, which, channel, text, len(text), None))
        return text.raw[: needed.value].decode("utf-8", "surrogateescape")

    def column(self, name: str, code: str, channel: int, channels: int) -> Any:
        """The numbers of a channel, one for each row. The first channel asked for is read alone; the second time all others are read too, a
        block of rows at a time: the record is stored row by row, so each pass takes about as long for one channel as for all."""
        columns = self._columns.setdefault(name, {})
        if channel not in columns:
            is_alone = not columns or channels * self.rows * ctypes.sizeof(_TYPES[code]) > _MOST
            asked = [channel] if is_alone else [k for k in range(channels) if k not in columns]
            columns.update(zip(asked, self._read(name, code, asked)))
        return columns[channel]

    def of_rows(self, name: str, code: str) -> Any:
        """The numbers of the rows themselves."""
        if name not in self._of_rows:
            (table,) = _tables(code, 1, self.rows)
            need(getattr(c.library, "comtrade_" + name)(self.at, 0, self.rows, _place(table)))
            self._of_rows[name] = table
        return self._of_rows[name]

    def _read(self, name: str, code: str, channels: List[int]) -> List[Any]:
        call, size = getattr(c.library, "comtrade_" + name), ctypes.sizeof(_TYPES[code])
        tables = _tables(code, len(channels), self.rows)
        places = [_place(table) for table in tables]
        step = max(256, _BLOCK // len(channels)) if len(channels) > 1 else max(1, self.rows)
        for row in range(0, self.rows, step):
            count = min(step, self.rows - row)
            for channel, place in zip(channels, places):
                need(call(self.at, channel, row, count, place + row * size))
        return tables

    def rate(self, number: int) -> Rate:
        said = c.Rate()
        need(c.library.comtrade_rate(self.at, number, ctypes.byref(said)))
        return Rate(said.samp, said.endsamp)


class _Channel(Sequence[Any]):
    """A channel of a record. As a sequence it is its values or bits."""

    def __init__(self, kept: _Kept, number: int, texts: Sequence[int]):
        self._record, self._number = kept, number
        self.id, self.phase, self.component = (kept.text(which, number) for which in texts)

    @property
    def name(self) -> str:
        """The same as `id`."""
        return self.id

    def _items(self) -> Any:
        raise NotImplementedError

    def __len__(self) -> int:
        return self._record.rows

    def __getitem__(self, at: Any) -> Any:
        return self._items()[at]

    def __iter__(self) -> Iterator[Any]:
        return iter(self._items())

    def __array__(self, dtype: Any = None, copy: Any = None) -> Any:
        return numpy.asarray(self._items(), dtype=dtype)

    def __repr__(self) -> str:
        return f"<{type(self).__name__} {self.id!r}: {len(self)} rows>"


class AnalogChannel(_Channel):
    """An analogue channel. The value of a sample x is a * x + b in `unit`. A missing sample is NO_SAMPLE, and its value is a NaN."""

    def __init__(self, kept: _Kept, number: int):
        super().__init__(kept, number, (c.ANALOG_ID, c.ANALOG_PHASE, c.ANALOG_COMPONENT))
        said = c.Analog()
        need(c.library.comtrade_analog(kept.at, number, ctypes.byref(said)))
        self.unit = kept.text(c.ANALOG_UNIT, number)
        self.a: float = said.a
        self.b: float = said.b
        self.skew: float = said.skew
        self.primary: float = said.primary
        self.secondary: float = said.secondary
        self.min: int = said.min
        self.max: int = said.max
        self.on_secondary: bool = said.on_secondary

    @property
    def samples(self) -> Any:
        """The samples, one for each row, as int32."""
        return self._record.column("samples", "i", self._number, self._record.head.analog)

    @property
    def values(self) -> Any:
        """The value of each row in `unit`, as float64."""
        return self._record.column("values", "d", self._number, self._record.head.analog)

    def _items(self) -> Any:
        return self.values

    def measure(self, at: measures.Moment, cycles: int = 1) -> measures.Measure:
        """What `comtrade measure --at` prints: over the last whole cycles that end at a moment, seconds since the first row or an instant.
        Raises ValueError."""
        return measures.measured(self._record, self._number, measures.row_at(self._record, at), cycles)

    def rms(self, at: measures.Moment, cycles: int = 1) -> float:
        """The rms value over the last whole cycles that end at a moment. Raises ValueError."""
        return self.measure(at, cycles).rms

    def rms_over(self, first: int, count: int) -> float:
        """The rms value over `count` rows from row `first` on: the root of the mean square of their values. Raises ValueError."""
        return measures.rms_over(self._record, self._number, first, count)

    def phasor(self, at: measures.Moment, cycles: int = 1, reference: measures.Reference = None) -> complex:
        """The fundamental over the last whole cycles that end at a moment: its magnitude is an rms value, its angle that to the channel
        `reference` (an index or id; by default the first channel that has an angle). Raises ValueError."""
        return measures.phasor(self._record, self._number, at, cycles, reference)


class StatusChannel(_Channel):
    """A status channel. `normal` is its bit in normal operation."""

    def __init__(self, kept: _Kept, number: int):
        super().__init__(kept, number, (c.STATUS_ID, c.STATUS_PHASE, c.STATUS_COMPONENT))
        said = c.Status()
        need(c.library.comtrade_status(kept.at, number, ctypes.byref(said)))
        self.normal = int(said.normal)

    @property
    def bits(self) -> Any:
        """The bits, one for each row, as uint8."""
        return self._record.column("bits", "B", self._number, self._record.head.status)

    def _items(self) -> Any:
        return self.bits


_C = TypeVar("_C", bound=_Channel)


class Channels(Sequence[_C]):
    """The channels, by index (from 0) or by id. An id that several channels have means the first of them."""

    def __init__(self, channels: List[_C]):
        self._channels = channels
        self._by_id: Dict[str, _C] = {}
        for channel in channels:
            self._by_id.setdefault(channel.id, channel)

    @overload
    def __getitem__(self, at: Union[int, str]) -> _C: ...
    @overload
    def __getitem__(self, at: slice) -> List[_C]: ...
    def __getitem__(self, at: Union[int, str, slice]) -> Union[_C, List[_C]]:
        return self._by_id[at] if isinstance(at, str) else self._channels[at]

    def __len__(self) -> int:
        return len(self._channels)

    def __contains__(self, at: object) -> bool:
        return at in self._by_id if isinstance(at, str) else at in self._channels

    def keys(self) -> List[str]:
        """The ids, in order."""
        return [channel.id for channel in self._channels]

    def __repr__(self) -> str:
        return f"<{len(self)} channels: {', '.join(self.keys()[:8])}{', ..' if len(self) > 8 else ''}>"


class Record:
    """A record that has been read. Times count from the first row."""

    def __init__(self, at: ctypes.c_void_p, notes: List[str]):
        self._record = kept = _Kept(at)
        head = kept.head
        #: What was repaired, or rounded to the samples of 1999: a line for each kind, which begins with its key and a colon.
        self.notes = notes
        self.line_freq: float = head.line_freq
        self.timemult: float = head.timemult
        self.binary: bool = head.binary
        self.nrates: int = head.nrates
        self.station, self.device = kept.text(c.STATION, 0), kept.text(c.DEVICE, 0)
        self.analog = Channels([AnalogChannel(kept, k) for k in range(head.analog)])
        self.status = Channels([StatusChannel(kept, k) for k in range(head.status)])
        self.rates = [kept.rate(k) for k in range(head.rates)]
        self._seconds: Any = None

    def __len__(self) -> int:
        return self._record.rows

    def __repr__(self) -> str:
        kind = "BINARY" if self.binary else "ASCII"
        return f"<Record {self.station!r}: {len(self.analog)} analogue, {len(self.status)} status channels, {len(self)} rows, {kind}>"

    @property
    def stamps(self) -> Any:
        """The time stamp of each row as the data file has it, as uint64; NO_STAMP if it is missing."""
        return self._record.of_rows("stamps", "Q")

    @property
    def times_ns(self) -> Any:
        """The time of each row in nanoseconds since the first row, as int64; NO_TIME if a row has neither a rate nor a time stamp."""
        return self._record.of_rows("times", "q")

    @property
    def times(self) -> Any:
        """The time of each row in seconds since the first row, as float64; a NaN if a row has neither a rate nor a time stamp."""
        if self._seconds is None:
            times = self.times_ns
            if numpy is not None:
                self._seconds = numpy.where(times == c.NO_TIME, numpy.nan, times / 1e9)
            else:
                seconds = array.array("d", map((1e9).__rtruediv__, times))
                if c.NO_TIME in times:
                    for k, time in enumerate(times):
                        if time == c.NO_TIME:
                            seconds[k] = float("nan")
                self._seconds = seconds
        return self._seconds

    @property
    def first(self) -> datetime.datetime:
        """The instant of the first row, to the microsecond, without a time zone."""
        return _EPOCH + datetime.timedelta(microseconds=self._record.head.first)

    @property
    def trigger(self) -> datetime.datetime:
        """The instant of the trigger, to the microsecond, without a time zone."""
        return _EPOCH + datetime.timedelta(microseconds=self._record.head.trigger)

    @property
    def events(self) -> List[Event]:
        """The changes of status channels, in the order of rows, and of channels in a row."""
        times = self.times
        changes = [(row, k) for k, channel in enumerate(self.status) for row in _changes_of(channel.bits)]
        return [Event(row, float(times[row]), self.status[k], int(self.status[k].bits[row])) for row, k in sorted(changes)]

    def phasors(self, at: measures.Moment, cycles: int = 1, reference: measures.Reference = None) -> List[complex]:
        """The fundamental of each analogue channel; see `AnalogChannel.phasor`. A channel that misses a sample there has a NaN."""
        return measures.phasors(self._record, at, cycles, reference)

    def to_pandas(self) -> Any:
        """A pandas DataFrame of all values and bits: a column for each channel, indexed by seconds since the first row. Channels with the same
        id get column names ending in `#2`, `#3` .."""
        pandas = importlib.import_module("pandas")
        columns: Dict[str, Any] = {}
        for channel in [*self.analog, *self.status]:
            name, again = channel.id, 1
            while name in columns:
                again += 1
                name = f"{channel.id}#{again}"
            columns[name] = channel._items()
        return pandas.DataFrame(columns, index=pandas.Index(self.times, name="time"))

    # Names that other Python readers use.

    to_dataframe = to_pandas

    def _has_note(self, key: str) -> bool:
        return any(note.startswith(key + ":") for note in self.notes)

    @property
    def rev_year(self) -> str:
        """The revision of the standard that the files follow: 1991, 1999 or 2013."""
        return next((year for year in ("1991", "2013") if self._has_note(f"revision-{year}")), "1999")

    @property
    def channels_count(self) -> int:
        """The number of analogue and status channels."""
        return len(self.analog) + len(self.status)

    @property
    def station_name(self) -> str:
        """The same as `station`."""
        return self.station

    @property
    def rec_dev_id(self) -> str:
        """The same as `device`."""
        return self.device

    @property
    def analog_channel_ids(self) -> List[str]:
        """The ids of the analogue channels."""
        return self.analog.keys()

    @property
    def status_channel_ids(self) -> List[str]:
        """The ids of the status channels."""
        return self.status.keys()

    @property
    def analog_count(self) -> int:
        """The number of analogue channels."""
        return len(self.analog)

    @property
    def status_count(self) -> int:
        """The number of status channels."""
        return len(self.status)

    @property
    def total_samples(self) -> int:
        """The number of rows."""
        return self._record.rows

    @property
    def frequency(self) -> float:
        """The same as `line_freq`."""
        return self.line_freq

    @property
    def time(self) -> Any:
        """The same as `times`."""
        return self.times

    @property
    def start_timestamp(self) -> datetime.datetime:
        """The same as `first`."""
        return self.first

    @property
    def trigger_timestamp(self) -> datetime.datetime:
        """The same as `trigger`."""
        return self.trigger

    @property
    def trigger_time(self) -> float:
        """Seconds from the first row to the trigger."""
        return float(self._record.head.trigger - self._record.head.first) / 1e6

    @property
    def ft(self) -> str:
        """The type of the data: ASCII, BINARY, BINARY32 or FLOAT32."""
        for key, kind in (("kind-binary32", "BINARY32"), ("kind-float32", "FLOAT32")):
            if self._has_note(key):
                return kind
        return "BINARY" if self.binary else "ASCII"
