"""The calendar, the register and its rows."""

import ctypes
import struct
from enum import IntEnum
from typing import Any, Iterable, List, NamedTuple, Optional, SupportsIndex, Union

from . import _library
from .refusals import CalendarTailRefused, RegisterLengthRefused, raise_unless_accepted
from .series import OptionType, Series

_CALENDAR_BYTES = 4566
_REGISTER_BYTES = 11264
_MOST_FILE_BYTES = 41735

_LAST_DAY = 36524

# Month, price, first day, origin, and a byte 0.
_ROW = struct.Struct("<HHHBx")

Bytes = Union[bytes, bytearray, memoryview]


class Calendar:
    """The days of the years 2000 to 2099 that have a session. It has passed the check."""

    def __init__(self, data: Bytes) -> None:
        """Takes the bytes of a calendar: day n has a session when the bit of weight 2^(n mod 8) in
        byte n div 8 is set. Raises CalendarLengthRefused, CalendarTailRefused or
        CalendarMonthRefused."""
        self._data = bytes(memoryview(data))
        result = _library.calendar_check(self._data, len(self._data))
        raise_unless_accepted(result.number, result.month)

    @classmethod
    def with_sessions(cls, days: Iterable[int]) -> "Calendar":
        """A calendar with sessions on these days, in any order. Raises CalendarTailRefused for a
        day after 36524, and CalendarMonthRefused."""
        data = bytearray(_CALENDAR_BYTES)
        for day in days:
            if not 0 <= day <= _LAST_DAY:
                raise CalendarTailRefused
            data[day // 8] |= 1 << day % 8
        return cls(data)

    def has_session(self, day: int) -> bool:
        """Whether a day has a session."""
        return 0 <= day <= _LAST_DAY and self._data[day // 8] >> day % 8 & 1 == 1

    def next_session(self, day: int) -> Optional[int]:
        """The first session after a day. It is None after the last session."""
        return next(filter(self.has_session, range(day + 1, _LAST_DAY + 1)), None)

    def __bytes__(self) -> bytes:
        return self._data

    def __eq__(self, other: object) -> bool:
        return isinstance(other, Calendar) and self._data == other._data

    def __hash__(self) -> int:
        return hash(self._data)


class Origin(IntEnum):
    """What brought a row into the register, each with the gap up to the ladder that stood."""

    NEW_MONTH = 1
    FINER_GRID = 2
    CLOSE = 3
    ANNOUNCEMENT = 4
    START = 5


# Several times as fast as Origin(number), which a ladder needs for each row.
ORIGINS = {int(origin): origin for origin in Origin}


class Row(NamedTuple):
    """A listed strike, its call and its put together."""

    month: int
    price: int
    """In whole index points."""
    first_day: int
    """The first session on which the strike was listed."""
    origin: Origin

    def name(self, option_type: OptionType) -> str:
        """The name of the strike's call or put."""
        return Series(self.month, option_type, self.price).name()


class Listed(NamedTuple):
    """What a start or a session did."""

    added: int
    """Rows whose first day is the new day."""
    removed: int
    """Old rows of the month that expired."""
    rows: int
    """Rows that stand now."""


class Register:
    """The listed strikes of the six live months, and what was announced for the next session.

    The numbers that calls take may be any: one that is out of range is refused by its cause.
    """

    def __init__(self, data: Optional[Bytes] = None) -> None:
        """An empty register, or one of the bytes that were saved. Whether they are well formed
        depends on the calendar: every call looks first, and raises RegisterFormRefused. Raises
        RegisterLengthRefused."""
        self.data = bytearray(bytes(_REGISTER_BYTES) if data is None else memoryview(data))
        """The bytes to save."""
        if len(self.data) != _REGISTER_BYTES:
            raise RegisterLengthRefused

    @property
    def day(self) -> Optional[int]:
        """The day of the last start or session, as it stands in the bytes; None for an empty
        register."""
        return int.from_bytes(self.data[2:4], "little") if self.data[0] else None

    def start(self, calendar: Calendar, day: SupportsIndex, close: SupportsIndex) -> Listed:
        """Starts an empty register on a session day, with the close before it, and lists all six
        live months. Raises the first that holds of RegisterFormRefused, RunningRefused,
        StartDayRefused, TooLateRefused and CloseRefused."""
        return self._listed(_library.start, calendar, day, close)

    def session(self, calendar: Calendar, day: SupportsIndex, close: SupportsIndex) -> Listed:
        """Moves the register on to the next session day: drops the month that expired, lists what
        the close before that day requires and what was announced. Raises the first that holds of
        RegisterFormRefused, EmptyRefused, SessionDayRefused, TooLateRefused and CloseRefused."""
        return self._listed(_library.session, calendar, day, close)

    def announce(self, calendar: Calendar, month: SupportsIndex, price: SupportsIndex) -> int:
        """Takes in a strike that the exchange announced, for the next session, and tells how many
        announcements wait now. Raises the first that holds of RegisterFormRefused, EmptyRefused,
        TooLateRefused, AnnounceMonthRefused, AnnouncePriceRefused, AnnounceKnownRefused and
        AnnounceFullRefused."""
        result = self._call(_library.announce, calendar, month, price)
        raise_unless_accepted(result.number, result.waiting)
        return result.waiting

    def rows(self, calendar: Calendar, month: SupportsIndex) -> List[Row]:
        """The rows of a live month, ascending by price. Raises the first that holds of
        RegisterFormRefused, EmptyRefused and RowsMonthRefused."""
        result = self._call(_library.rows, calendar, month)
        raise_unless_accepted(result.number)
        with memoryview(self.data) as data, data[result.at : result.at + result.size] as part:
            return [
                Row(month, price, first_day, ORIGINS[origin])
                for month, price, first_day, origin in _ROW.iter_unpack(part)
            ]

    def file(self, calendar: Calendar) -> bytes:
        """The file of the day's new series: call and put of each row whose first day is the
        register's day; read_file reads it. Raises the first that holds of RegisterFormRefused and
        EmptyRefused."""
        file = ctypes.create_string_buffer(_MOST_FILE_BYTES)
        result = self._lend(_library.file_write, calendar, file, len(file))
        raise_unless_accepted(result.number, result.length)
        return file[: result.length]

    def __bytes__(self) -> bytes:
        return bytes(self.data)

    def __eq__(self, other: object) -> bool:
        return isinstance(other, Register) and self.data == other.data

    def _listed(
        self, function: Any, calendar: Calendar, day: SupportsIndex, close: SupportsIndex
    ) -> Listed:
        result = self._call(function, calendar, day, close)
        raise_unless_accepted(result.number, result.added)
        return Listed(result.added, result.removed, result.rows)

    def _call(self, function: Any, calendar: Calendar, *numbers: SupportsIndex) -> Any:
        return self._lend(function, calendar, *map(_library.number, numbers))

    def _lend(self, function: Any, calendar: Calendar, *more: Any) -> Any:
        lent = bytes(calendar)
        size = len(self.data)
        register = (ctypes.c_ubyte * size).from_buffer(self.data)
        return function(lent, len(lent), register, size, *more)
