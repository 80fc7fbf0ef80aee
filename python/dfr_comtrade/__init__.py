"""Reads COMTRADE records, and writes those of 1999 (IEEE Std C37.111-1999).

A record is a pair of files, here fault.cfg and fault.dat:

    import dfr_comtrade

    record = dfr_comtrade.read("fault.cfg")
    for channel in record.analog:
        print(channel.id, max(channel.values), channel.unit)
    dfr_comtrade.write("copy.cfg", record)

It reads what `comtrade` reads: files of 1991, 1999 and 2013, single files (.cff), BINARY32 and FLOAT32 data, the dialects of relays and
programs, and any of these compressed by gzip or in a zip archive. `record.notes` says what was repaired. `Comtrade` and `load` have the names of the package `comtrade`.
"""
from typing import Optional

from . import _files, _packed
from ._library import NO_SAMPLE, NO_STAMP, NO_TIME
from .errors import CfgFault, ComtradeError, DatFault, RepairWarning, WriteFault, explain
from .measures import Measure
from .opening import exact_of, imported_of, warn_of
from .record import AnalogChannel, Channels, Event, Rate, Record, StatusChannel
from .same_names import Comtrade, load
from .writing import Analog, Status, write, write_bytes

__version__ = "1.2.0"
__all__ = [
    "Analog", "AnalogChannel", "CfgFault", "Channels", "Comtrade", "ComtradeError", "DatFault", "Event", "Measure", "NO_SAMPLE", "NO_STAMP",
    "NO_TIME", "Rate", "Record", "RepairWarning", "Status", "StatusChannel", "WriteFault", "explain", "load", "read", "read_bytes", "write", "write_bytes",
]


def read_bytes(
    cfg: bytes, dat: Optional[bytes] = None, *, exact: bool = False, encoding: Optional[str] = None, dates: Optional[str] = None
) -> Record:
    """Reads a record from the bytes of its configuration file and its data file, or of a single file (.cff), compressed by gzip or not, or of a
    zip archive with one record in it.

    Files of other revisions and makers are read as `comtrade import` reads them. `record.notes` has a line for each kind of repair, and a
    RepairWarning is given if there are any.
    `encoding` is that of texts outside ASCII, such as "cp850", `dates` is "mdy" or "dmy" for the order of day and month. With `exact=True`
    only files of 1999 are read, as they are, and nothing is repaired. Raises CfgFault, DatFault, MemoryError, ValueError."""
    found, data = _packed.taken_out(cfg, dat)
    return _opened(found, data, exact, encoding, dates)


def read(
    cfg: _files.Name,
    dat: Optional[_files.Name] = None,
    *,
    exact: bool = False,
    encoding: Optional[str] = None,
    dates: Optional[str] = None,
) -> Record:
    """Reads a record from its two files. With one name, this is the name of either file, or the name that they share without .cfg and .dat,
    or a single file (.cff). The other file is in the same folder; its name may differ in upper and lower case. With two names, exactly these
    files are read. Files may be compressed by gzip (.cfg.gz, .dat.gz, .cff.gz), or be in a zip archive (.zip, .cfz) with one record in it. The other arguments are those of `read_bytes`. Raises OSError (FileNotFoundError says what was looked for), CfgFault,
    DatFault, MemoryError, ValueError."""
    found, data = (cfg, dat) if dat is not None else _files.pair_of(cfg)
    content, rows = _packed.contents(found, data)
    if rows is None and exact:
        raise CfgFault(_files.single_text(str(found)))
    return _opened(content, rows, exact, encoding, dates)


def _opened(cfg: bytes, dat: Optional[bytes], exact: bool, encoding: Optional[str], dates: Optional[str]) -> Record:
    record = exact_of(cfg, dat) if exact else imported_of(cfg, dat, encoding, dates)
    warn_of(record, 3)
    return record
