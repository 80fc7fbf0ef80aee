"""Reads the bytes of a record, exactly or with the repairs that they need."""
import ctypes
import warnings
from typing import List, Optional

from . import _library as c
from .errors import CfgFault, ComtradeError, RepairWarning, need, need_read
from .record import Record

_DATES = {None: 0, "mdy": 1, "dmy": 2}
_SINGLE = "a single file (.cff) is not read exactly"


def exact_of(cfg: bytes, dat: Optional[bytes]) -> Record:
    """A record of 1999, as it is."""
    if dat is None:
        raise CfgFault(_SINGLE)
    at, fault = ctypes.c_void_p(), c.Fault()
    need_read(c.library.comtrade_open(cfg, len(cfg), dat, len(dat), ctypes.byref(at), ctypes.byref(fault)), fault, cfg, dat)
    return Record(at, [])


def _notes_of(at: ctypes.c_void_p) -> List[str]:
    notes = []
    for number in range(c.library.comtrade_notes(at)):
        needed = ctypes.c_size_t()
        c.library.comtrade_note(at, number, None, 0, ctypes.byref(needed))
        text = ctypes.create_string_buffer(needed.value + 1)
        need(c.library.comtrade_note(at, number, text, len(text), None))
        notes.append(text.raw[: needed.value].decode("utf-8", "surrogateescape"))
    return notes


def _refused(cfg: bytes, dat: Optional[bytes], why: str) -> Record:
    """A pair that can only be read exactly, with a note; else an error with the reason."""
    if dat is None:
        raise CfgFault(why)
    try:
        record = exact_of(cfg, dat)
    except ComtradeError as fault:
        raise type(fault)(f"{fault}; comtrade import: {why}", fault.kind, fault.place, fault.field) from None
    record.notes.append(f"unclear: {why}")
    return record


def imported_of(cfg: bytes, dat: Optional[bytes], encoding: Optional[str], dates: Optional[str]) -> Record:
    """A record as `comtrade import` reads it."""
    if dates not in _DATES:
        raise ValueError(f"dates is 'mdy' or 'dmy', not {dates!r}")
    choices = c.Choices(encoding=None if encoding is None else encoding.encode(), dates=_DATES[dates])
    at, needed, room = ctypes.c_void_p(), ctypes.c_size_t(), 1000
    data, length = (None, 0) if dat is None else (dat, len(dat))
    while True:
        why = ctypes.create_string_buffer(room)
        answer = c.library.comtrade_import(
            cfg, len(cfg), data, length, ctypes.byref(choices), ctypes.byref(at), why, room, ctypes.byref(needed)
        )
        if answer != c.REFUSED or needed.value < room:
            break
        room = needed.value + 1
    if answer == c.REFUSED:
        return _refused(cfg, dat, why.raw[: needed.value].decode("utf-8", "replace"))
    if answer == c.BAD_CALL and encoding is not None:
        raise ValueError(f"unknown encoding: {encoding!r}")
    need(answer)
    return Record(at, _notes_of(at))


def warn_of(record: Record, depth: int) -> None:
    """Warns, in the line of the caller so far up, of a record that was repaired."""
    if record.notes:
        more = f"; and {len(record.notes) - 1} more, see `notes`" if len(record.notes) > 1 else ""
        warnings.warn(f"{record.station}: {record.notes[0]}{more}", RepairWarning, stacklevel=depth + 1)
