"""The answers of the library as exceptions."""
import ctypes
import os

from . import _files, _library as c


class ComtradeError(Exception):
    """A record cannot be read or written.

    `place` and `field` count from 1, and are 0 if the fault has none. In a configuration file or ASCII data, `place` is the line. For a sample
    or a time stamp to be written, `place` is the row, and `field` is the channel of the sample. `kind` is a number of comtrade.h."""

    def __init__(self, message: str, kind: int = 0, place: int = 0, field: int = 0):
        super().__init__(message)
        self.kind, self.place, self.field = kind, place, field

    @property
    def line(self) -> int:
        """The same as `place`."""
        return self.place


class CfgFault(ComtradeError):
    """The configuration file has an error that cannot be repaired; read exactly, any error, another revision, or a single file (.cff)."""


class DatFault(ComtradeError):
    """The data file has an error that cannot be repaired; read exactly, any error."""


class RepairWarning(UserWarning):
    """A record was read with repairs; its `notes` list them."""


class WriteFault(ComtradeError):
    """No COMTRADE file can hold this record."""


_KINDS = {c.CFG_FAULT: (CfgFault, "the configuration file: "), c.DAT_FAULT: (DatFault, "the data file: "), c.WRITE_FAULT: (WriteFault, "")}


def fault_text(fault: c.Fault) -> str:
    """A fault in the words of the library."""
    text = ctypes.create_string_buffer(200)
    c.library.comtrade_fault_text(ctypes.byref(fault), text, len(text), None)
    return text.value.decode()


def explain(cfg: bytes, dat: bytes) -> str:
    """The first fault of a pair in words: where it is, what was found and what was expected. Empty if the pair has none. `cfg` and `dat` are
    the bytes of both files."""
    needed = ctypes.c_size_t()
    c.library.comtrade_explain(cfg, len(cfg), dat, len(dat), None, 0, ctypes.byref(needed))
    text = ctypes.create_string_buffer(needed.value + 1)
    need(c.library.comtrade_explain(cfg, len(cfg), dat, len(dat), text, len(text), None))
    return text.value.decode()


def need_read(answer: int, fault: c.Fault, cfg: bytes, dat: bytes) -> None:
    """Raises unless the pair was read; a fault with its full explanation, and what to do about a file of another revision."""
    if answer in (c.CFG_FAULT, c.DAT_FAULT):
        hint = _files.import_hint(cfg) if answer == c.CFG_FAULT else ""
        raise _KINDS[answer][0](explain(cfg, dat) + (f"; {hint}" if hint else ""), fault.kind, fault.place, fault.field)
    need(answer)


def need(answer: int, fault: "c.Fault | None" = None) -> None:
    """Raises unless the call succeeded."""
    if answer == c.DONE:
        return
    if answer in _KINDS and fault is not None:
        kind, words = _KINDS[answer]
        raise kind(words + fault_text(fault), fault.kind, fault.place, fault.field)
    if answer == c.NO_MEMORY:
        raise MemoryError("out of memory")
    if answer == c.NO_ITEM:
        raise IndexError(c.library.comtrade_answer_text(answer).decode())
    raise ComtradeError(c.library.comtrade_answer_text(answer).decode() + (f" ({os.strerror(ctypes.get_errno())})" if answer == c.NO_FILE else ""))
