"""The names of the package `comtrade`, so that a script which uses that package only changes its import:

    import dfr_comtrade as comtrade

    rec = comtrade.load("fault.cfg")
    print(rec.station_name, rec.analog[0][0], rec.cfg.analog_channels[0].uu)
"""
import os
from pathlib import Path
from typing import Any, List, Optional, Union

from . import _files, _packed
from .opening import imported_of, warn_of
from .record import AnalogChannel, Record, StatusChannel

MICROSECOND = 1e-6


class CfgAnalog:
    """The line of an analogue channel."""

    def __init__(self, number: int, channel: AnalogChannel):
        self.n = number
        self.name, self.ph, self.ccbm, self.uu = channel.id, channel.phase, channel.component, channel.unit
        self.a, self.b, self.skew = channel.a, channel.b, channel.skew
        self.cmin, self.cmax = channel.min, channel.max
        self.primary, self.secondary = channel.primary, channel.secondary
        self.pors = "S" if channel.on_secondary else "P"


class CfgStatus:
    """The line of a status channel."""

    def __init__(self, number: int, channel: StatusChannel):
        self.n = number
        self.name, self.ph, self.ccbm, self.y = channel.id, channel.phase, channel.component, channel.normal


class Cfg:
    """The configuration file of a record."""

    def __init__(self, record: Record, filepath: str):
        self.filepath = filepath
        self.station_name, self.rec_dev_id, self.rev_year = record.station, record.device, record.rev_year
        self.analog_count, self.status_count = len(record.analog), len(record.status)
        self.channels_count = self.analog_count + self.status_count
        self.analog_channels = [CfgAnalog(n, c) for n, c in enumerate(record.analog, 1)]
        self.status_channels = [CfgStatus(n, c) for n, c in enumerate(record.status, 1)]
        self.frequency, self.timemult, self.ft = record.line_freq, record.timemult, record.ft
        self.nrates = record.nrates
        self.sample_rates = [[rate.samp, rate.endsamp] for rate in record.rates]
        self.start_timestamp, self.trigger_timestamp = record.first, record.trigger
        self.time_base = MICROSECOND

    @property
    def digital_channels(self) -> List[CfgStatus]:
        """The same as `status_channels`."""
        return self.status_channels

    @property
    def digital_count(self) -> int:
        """The same as `status_count`."""
        return self.status_count


def _beside(path: str, ending: str) -> Optional[str]:
    """The text of the file with this ending next to a record's, None if there is none."""
    stem, _ = _files.split(path, _files.ENDINGS)
    for name in (stem + ending, stem + ending.upper()):
        if os.path.isfile(name):
            return Path(name).read_bytes().decode("utf-8", "replace")
    return None


def _section(single: bytes, kind: str) -> Optional[str]:
    """The lines of a single file between the line of a section, such as HDR, and that of the next one."""
    found: Optional[List[str]] = None
    for line in single.decode("utf-8", "replace").splitlines():
        words = line.strip().lower()
        if words.startswith("---") and "file type" in words:
            if found is not None:
                break
            found = [] if f"file type: {kind.lower()}" in words else None
        elif found is not None:
            found.append(line)
    return None if found is None else "\n".join(found)


class Comtrade:
    """A record under the names of the package `comtrade`. Values are arrays, one for each channel."""

    def __init__(self, *, ignore_warnings: bool = False, use_numpy_arrays: bool = False, use_double_precision: bool = False):
        """With `ignore_warnings` no RepairWarning is given. The others change nothing: arrays are of numpy where it is installed, and doubles."""
        self._ignores = ignore_warnings
        self._depth = 3  # so far up is the caller whom a warning names
        self._record: Optional[Record] = None
        self._cfg: Optional[Cfg] = None
        self.hdr: Optional[str] = None
        self.inf: Optional[str] = None
        self.file_path = ""

    def load(self, cfg_file: _files.Name, dat_file: Optional[_files.Name] = None, **kwargs: Any) -> None:
        """Reads the files of a record, or a single file (.cff). `encoding` is that of its texts; `hdr` and `inf` name the other two files, which
        are otherwise those next to it. Raises as `read` does."""
        found, data = (os.fspath(cfg_file), dat_file) if dat_file is not None else _files.pair_of(cfg_file)
        content, rows = _packed.contents(found, data)
        self.file_path = str(found)
        self._take(content, rows, kwargs.get("encoding"))
        for name in ("hdr", "inf"):
            given = kwargs.get(name) or kwargs.get(f"{name}_file")
            if given:
                text: Optional[str] = Path(given).read_bytes().decode("utf-8", "replace")
            else:
                text = _section(content, name) if rows is None else _beside(str(found), "." + name)
            setattr(self, name, text)

    def read(self, cfg: Union[str, bytes], dat: Union[str, bytes], hdr: Optional[str] = None, inf: Optional[str] = None, **kwargs: Any) -> None:
        """Reads a record from the content of its files."""
        cfg = cfg.encode() if isinstance(cfg, str) else cfg
        dat = dat.encode() if isinstance(dat, str) else dat
        self._take(cfg, dat, kwargs.get("encoding"))
        self.hdr, self.inf = hdr, inf

    def _take(self, cfg: bytes, dat: Optional[bytes], encoding: Optional[str]) -> None:
        self._record = imported_of(cfg, dat, encoding, None)
        self._cfg = Cfg(self._record, self.file_path)
        if not self._ignores:
            warn_of(self._record, self._depth)

    @property
    def record(self) -> Record:
        """The record. Raises ValueError if none was read."""
        if self._record is None:
            raise ValueError("no record was read: call load or read first")
        return self._record

    @property
    def cfg(self) -> Cfg:
        """The configuration file. Raises ValueError if none was read."""
        self.record
        assert self._cfg is not None
        return self._cfg

    @property
    def analog(self) -> List[Any]:
        """The values of each analogue channel."""
        return [channel.values for channel in self.record.analog]

    @property
    def status(self) -> List[Any]:
        """The bits of each status channel."""
        return [channel.bits for channel in self.record.status]

    digital = status

    @property
    def analog_phases(self) -> List[str]:
        """The phase of each analogue channel."""
        return [channel.phase for channel in self.record.analog]

    @property
    def status_phases(self) -> List[str]:
        """The phase of each status channel."""
        return [channel.phase for channel in self.record.status]

    digital_phases = status_phases

    @property
    def digital_channel_ids(self) -> List[str]:
        """The same as `status_channel_ids`."""
        return self.record.status_channel_ids

    @property
    def digital_count(self) -> int:
        """The same as `status_count`."""
        return self.record.status_count

    @property
    def time_base(self) -> float:
        """The unit of time stamps in seconds."""
        return MICROSECOND

    def __getattr__(self, name: str) -> Any:
        """Station, device, counts, times and instants: those of `Record`."""
        if name.startswith("_"):
            raise AttributeError(name)
        return getattr(self.record, name)

    def cfg_summary(self) -> str:
        """Counts, rates, instants and the type of the data, in lines."""
        cfg = self.cfg
        lines = [f"Channels (total,A,D): {cfg.analog_count}A + {cfg.status_count}D = {cfg.channels_count}", f"Line frequency: {cfg.frequency} Hz"]
        lines += [f"Sample rate of {rate} Hz to the sample #{last}" for rate, last in cfg.sample_rates[: cfg.nrates]]
        lines += [f"From {cfg.start_timestamp} to {cfg.trigger_timestamp} with time mult. = {cfg.timemult}", f"{cfg.ft} format"]
        return "\n".join(lines)


def load(cfg_file: _files.Name, dat_file: Optional[_files.Name] = None, **kwargs: Any) -> Comtrade:
    """A `Comtrade` that has read these files."""
    found = Comtrade()
    found._depth = 4
    found.load(cfg_file, dat_file, **kwargs)
    return found
