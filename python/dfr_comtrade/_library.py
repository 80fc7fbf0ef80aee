"""Loads the shared object; the structs and calls of comtrade.h."""
import ctypes
import ctypes.util
import os
from ctypes import POINTER, Structure, c_bool, c_char_p, c_double, c_int32, c_int64, c_size_t, c_uint8, c_uint32, c_uint64, c_void_p
from pathlib import Path
from typing import Any

VERSION = 10200  # an older library has another first number, or lacks calls that are used here
ALL = ctypes.c_size_t(-1).value
NO_SAMPLE = -(2**31)
NO_STAMP = 2**64 - 1
NO_TIME = -(2**63)

DONE, CFG_FAULT, DAT_FAULT, WRITE_FAULT, NO_MEMORY, NO_ROOM, NO_ITEM, NO_FILE, BAD_SIZE, BAD_CALL, REFUSED, NO_MEASURE = range(12)
STATION, DEVICE, ANALOG_ID, ANALOG_PHASE, ANALOG_COMPONENT, ANALOG_UNIT, STATUS_ID, STATUS_PHASE, STATUS_COMPONENT = range(9)


class Fault(Structure):
    _fields_ = [("place", c_uint64), ("field", c_uint32), ("kind", c_uint32)]


class Sized(Structure):
    """A struct that begins with its size."""

    def __init__(self, **fields: Any) -> None:
        super().__init__(size=ctypes.sizeof(type(self)), **fields)


class Choices(Sized):
    _fields_ = [("size", c_size_t), ("encoding", c_char_p), ("dates", c_uint32)]


class Head(Sized):
    _fields_ = [
        ("size", c_size_t), ("analog", c_size_t), ("status", c_size_t), ("rates", c_size_t), ("rows", c_size_t),
        ("first", c_int64), ("trigger", c_int64), ("line_freq", c_double), ("timemult", c_double), ("nrates", c_uint32), ("binary", c_bool),
    ]


class Analog(Sized):
    _fields_ = [
        ("size", c_size_t), ("a", c_double), ("b", c_double), ("skew", c_double), ("primary", c_double), ("secondary", c_double),
        ("min", c_int32), ("max", c_int32), ("on_secondary", c_bool),
    ]


class Status(Sized):
    _fields_ = [("size", c_size_t), ("normal", c_bool)]


class Rate(Sized):
    _fields_ = [("size", c_size_t), ("samp", c_double), ("endsamp", c_uint64)]


class Measure(Sized):
    _fields_ = [
        ("size", c_size_t), ("first", c_size_t), ("rows", c_size_t), ("rms", c_double), ("re", c_double), ("im", c_double), ("dc", c_double),
        ("fall", c_double), ("peak", c_double), ("residual", c_double), ("peak_row", c_size_t), ("orders", c_size_t), ("order", c_double * 25),
        ("has_angle", c_bool),
    ]


class AnalogSetup(Structure):
    _fields_ = [
        ("id", c_char_p), ("phase", c_char_p), ("component", c_char_p), ("unit", c_char_p),
        ("a", c_double), ("b", c_double), ("skew", c_double), ("primary", c_double), ("secondary", c_double),
        ("min", c_int32), ("max", c_int32), ("on_secondary", c_bool),
    ]


class StatusSetup(Structure):
    _fields_ = [("id", c_char_p), ("phase", c_char_p), ("component", c_char_p), ("normal", c_bool)]


class Setup(Sized):
    _fields_ = [
        ("size", c_size_t), ("station", c_char_p), ("device", c_char_p),
        ("analog", POINTER(AnalogSetup)), ("analog_count", c_size_t), ("status", POINTER(StatusSetup)), ("status_count", c_size_t),
        ("rates", POINTER(Rate)), ("rate_count", c_size_t), ("rows", c_size_t),
        ("stamps", c_void_p), ("samples", c_void_p), ("bits", c_void_p),
        ("line_freq", c_double), ("timemult", c_double), ("first", c_int64), ("trigger", c_int64), ("binary", c_bool),
    ]


def _path() -> str:
    named = os.environ.get("DFR_COMTRADE_LIBRARY")
    beside = Path(__file__).with_name("libcomtrade.so")
    found = named or (str(beside) if beside.exists() else ctypes.util.find_library("comtrade"))
    if not found:
        raise ImportError("libcomtrade.so not found: it is not in the package, not named by DFR_COMTRADE_LIBRARY and not installed")
    return found


def _dotted(version: int) -> str:
    return f"{version // 10000}.{version // 100 % 100}.{version % 100}"


def _load() -> ctypes.CDLL:
    library = ctypes.CDLL(_path())
    version = library.comtrade_version()
    if version // 10000 != VERSION // 10000 or version < VERSION:
        raise ImportError(f"libcomtrade.so has version {_dotted(version)}, expected {_dotted(VERSION)} or later with the same first number")
    fault, out, rows = POINTER(Fault), c_void_p, [c_void_p, c_size_t, c_size_t, c_size_t, c_void_p]
    calls = {
        "open": [c_char_p, c_size_t, c_char_p, c_size_t, POINTER(c_void_p), fault],
        "open_files": [c_char_p, c_char_p, POINTER(c_void_p), fault],
        "head": [c_void_p, POINTER(Head)],
        "text": [c_void_p, c_int32, c_size_t, out, c_size_t, POINTER(c_size_t)],
        "analog": [c_void_p, c_size_t, POINTER(Analog)],
        "status": [c_void_p, c_size_t, POINTER(Status)],
        "rate": [c_void_p, c_size_t, POINTER(Rate)],
        "samples": rows, "values": rows, "bits": rows,
        "stamps": [c_void_p, c_size_t, c_size_t, c_void_p],
        "times": [c_void_p, c_size_t, c_size_t, c_void_p],
        "import": [c_char_p, c_size_t, c_char_p, c_size_t, POINTER(Choices), POINTER(c_void_p), out, c_size_t, POINTER(c_size_t)],
        "measure": [c_void_p, c_size_t, c_size_t, c_uint32, POINTER(Measure)],
        "rms": [c_void_p, c_size_t, c_size_t, c_size_t, POINTER(c_double)],
        "note": [c_void_p, c_size_t, out, c_size_t, POINTER(c_size_t)],
        "explain": [c_char_p, c_size_t, c_char_p, c_size_t, out, c_size_t, POINTER(c_size_t)],
        "fault_text": [fault, out, c_size_t, POINTER(c_size_t)],
        "write": [POINTER(Setup), POINTER(POINTER(c_uint8)), POINTER(c_size_t), POINTER(POINTER(c_uint8)), POINTER(c_size_t), fault],
    }
    for name, types in calls.items():
        call = getattr(library, "comtrade_" + name, None)
        if call is None:
            raise ImportError(f"libcomtrade.so, version {_dotted(version)}, has no comtrade_{name}: this package needs a later library")
        call.argtypes, call.restype = types, c_int32
    library.comtrade_notes.argtypes, library.comtrade_notes.restype = [c_void_p], c_size_t
    library.comtrade_close.argtypes, library.comtrade_close.restype = [c_void_p], None
    library.comtrade_free.argtypes, library.comtrade_free.restype = [c_void_p], None
    library.comtrade_answer_text.argtypes, library.comtrade_answer_text.restype = [c_int32], c_char_p
    return library


library = _load()
