"""Files of series."""

import ctypes
import struct
from typing import List, NamedTuple

from . import _library
from .refusals import raise_unless_accepted
from .register import ORIGINS, Bytes, Origin
from .series import Series

# Name and origin.
_SERIES = struct.Struct("11sB")


class NewSeries(NamedTuple):
    """A series that is new on a file's day."""

    name: str
    series: Series
    """What the name says."""
    origin: Origin
    """What brought the strike into the register."""


class SeriesFile(NamedTuple):
    """A file of series that was read."""

    day: int
    """It need not have a session."""
    series: List[NewSeries]
    """Those that are new on the day, ascending by name."""


def read_file(data: Bytes) -> SeriesFile:
    """Reads the bytes of a file. Raises FileFormRefused, which has the lowest place at fault.

    >>> read_file(bytes([1, 2, 0, 0x58, 0x26, 2, 12, 0]) + b"OW20L262400" + bytes([5]))
    ... # doctest: +NORMALIZE_WHITESPACE
    SeriesFile(day=9816, series=[NewSeries(name='OW20L262400',
        series=Series(month=323, option_type=<OptionType.CALL: 0>, price=2400),
        origin=<Origin.START: 5>)])
    """
    file = bytes(memoryview(data))
    # A series is longer in the file than in the list.
    room = ctypes.create_string_buffer(len(file))
    result = _library.file_read(file, len(file), room, len(room))
    raise_unless_accepted(result.number, result.day)
    part = room[: _SERIES.size * result.series]
    return SeriesFile(
        result.day,
        [
            NewSeries(name.decode("ascii"), Series.read(name), ORIGINS[origin])
            for name, origin in _SERIES.iter_unpack(part)
        ],
    )
