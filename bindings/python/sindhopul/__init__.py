"""The proved register of listed WIG20 options: which strikes are listed today, since when, and
what the series are called.

A Calendar is checked once, when it is made. A Register begins empty, is started on a session day
and then moved from session to session with the close before each. Its file names the series that
are new on the day; read_file reads one. Whatever cannot be done raises a subclass of Refused, and
leaves the register as it was.

Days count from 0, 1 January 2000, and months from 0, January 2000; day_of, date_of and month_of
convert. Closes are in hundredths of an index point, prices of strikes in whole points.

>>> from datetime import date
>>> from sindhopul import Calendar, OptionType, Register, SessionDayRefused, day_of, month_of

Day 0 is a Saturday: a session on every weekday of the hundred years.

>>> calendar = Calendar.with_sessions(day for day in range(36525) if day % 7 >= 2)

Monday, 16 November 2026, after a close of 2413.37.

>>> register = Register()
>>> register.start(calendar, day_of(date(2026, 11, 16)), 241337)
Listed(added=94, removed=0, rows=94)

The exchange announces a strike of December 2026, and the next session lists it.

>>> december = month_of(date(2026, 12, 1))
>>> register.announce(calendar, december, 3100)
1
>>> register.session(calendar, day_of(date(2026, 11, 17)), 241502)
Listed(added=6, removed=0, rows=100)
>>> register.rows(calendar, december)[-1]
Row(month=323, price=3100, first_day=9817, origin=<Origin.ANNOUNCEMENT: 4>)
>>> register.rows(calendar, december)[-1].name(OptionType.CALL)
'OW20L263100'

The same session cannot come twice.

>>> try:
...     register.session(calendar, day_of(date(2026, 11, 17)), 241502)
... except SessionDayRefused as refusal:
...     print(refusal)
refused (19): the day is not the first session day after the register's
"""

from .dates import date_of, day_of, month_of
from .files import NewSeries, SeriesFile, read_file
from .refusals import (
    AnnounceFullRefused,
    AnnounceKnownRefused,
    AnnounceMonthRefused,
    AnnouncePriceRefused,
    CalendarLengthRefused,
    CalendarMonthRefused,
    CalendarTailRefused,
    CloseRefused,
    EmptyRefused,
    FileFormRefused,
    NameByteRefused,
    NameLengthRefused,
    NameSeriesRefused,
    OutputLengthRefused,
    Refused,
    RegisterFormRefused,
    RegisterLengthRefused,
    RowsMonthRefused,
    RunningRefused,
    SessionDayRefused,
    StartDayRefused,
    TooLateRefused,
)
from .register import Calendar, Listed, Origin, Register, Row
from .series import OptionType, Series

__all__ = [
    "AnnounceFullRefused",
    "AnnounceKnownRefused",
    "AnnounceMonthRefused",
    "AnnouncePriceRefused",
    "Calendar",
    "CalendarLengthRefused",
    "CalendarMonthRefused",
    "CalendarTailRefused",
    "CloseRefused",
    "EmptyRefused",
    "FileFormRefused",
    "Listed",
    "NameByteRefused",
    "NameLengthRefused",
    "NameSeriesRefused",
    "NewSeries",
    "OptionType",
    "Origin",
    "OutputLengthRefused",
    "Refused",
    "Register",
    "RegisterFormRefused",
    "RegisterLengthRefused",
    "Row",
    "RowsMonthRefused",
    "RunningRefused",
    "Series",
    "SeriesFile",
    "SessionDayRefused",
    "StartDayRefused",
    "TooLateRefused",
    "date_of",
    "day_of",
    "month_of",
    "read_file",
]
