"""The functions of include/sindhopul.h, from the shared object."""

import ctypes
import operator
import os
from pathlib import Path
from typing import Any, SupportsIndex


def _load() -> ctypes.CDLL:
    """The library that SINDHOPUL_LIBRARY names, else the one beside this file, else the one that
    is installed."""
    name = os.environ.get("SINDHOPUL_LIBRARY")
    if name is None:
        beside = Path(__file__).with_name("libsindhopul.so")
        name = str(beside) if beside.exists() else "libsindhopul.so.1"
    try:
        # Calls take a microsecond or two. PyDLL keeps the interpreter's lock meanwhile, so that no
        # other thread writes a register during a call.
        return ctypes.PyDLL(name)
    except OSError as error:
        raise ImportError(f"{error}; SINDHOPUL_LIBRARY may name the file") from error


class CalendarResult(ctypes.Structure):
    _fields_ = [("number", ctypes.c_uint16), ("month", ctypes.c_uint16)]


class ListingResult(ctypes.Structure):
    _fields_ = [
        ("number", ctypes.c_uint16),
        ("added", ctypes.c_uint16),
        ("removed", ctypes.c_uint16),
        ("rows", ctypes.c_uint16),
    ]


class AnnounceResult(ctypes.Structure):
    _fields_ = [("number", ctypes.c_uint16), ("waiting", ctypes.c_uint16)]


class RowsResult(ctypes.Structure):
    _fields_ = [
        ("number", ctypes.c_uint16),
        ("at", ctypes.c_uint16),
        ("size", ctypes.c_uint16),
    ]


class NameResult(ctypes.Structure):
    _fields_ = [
        ("number", ctypes.c_uint16),
        ("month", ctypes.c_uint16),
        ("type", ctypes.c_uint16),
        ("price", ctypes.c_uint16),
    ]


class FileWriteResult(ctypes.Structure):
    _fields_ = [("number", ctypes.c_uint16), ("length", ctypes.c_uint32)]


class FileReadResult(ctypes.Structure):
    _fields_ = [
        ("number", ctypes.c_uint16),
        ("day", ctypes.c_uint32),
        ("series", ctypes.c_uint32),
    ]


_library = _load()


def _function(name: str, result: Any, *arguments: Any) -> Any:
    function = getattr(_library, "sindhopul_" + name)
    function.restype = result
    function.argtypes = arguments
    return function


_constant = (ctypes.c_char_p, ctypes.c_size_t)
_mutable = (ctypes.c_void_p, ctypes.c_size_t)
_number = ctypes.c_uint32

calendar_check = _function("calendar_check", CalendarResult, *_constant)
start = _function("start", ListingResult, *_constant, *_mutable, _number, _number)
session = _function("session", ListingResult, *_constant, *_mutable, _number, _number)
announce = _function("announce", AnnounceResult, *_constant, *_mutable, _number, _number)
rows = _function("rows", RowsResult, *_constant, *_mutable, _number)
name_write = _function("name_write", ctypes.c_uint16, *_mutable, _number, _number, _number)
name_read = _function("name_read", NameResult, *_constant)
file_write = _function("file_write", FileWriteResult, *_constant, *_mutable, *_mutable)
file_read = _function("file_read", FileReadResult, *_constant, *_mutable)

_HIGHEST = 2**32 - 1


def number(value: SupportsIndex) -> int:
    """A number that a call can take. One that 32 bits do not hold becomes the highest that they
    do, which every call refuses by the same cause; ctypes would cut it short."""
    whole = operator.index(value)
    return whole if 0 <= whole <= _HIGHEST else _HIGHEST
