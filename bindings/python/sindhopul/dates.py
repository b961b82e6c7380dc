"""Dates and the numbers of days and months."""

import datetime

_DAY_0 = datetime.date(2000, 1, 1)


def day_of(date: datetime.date) -> int:
    """The number of a day: 0 is 1 January 2000, 36524 is 31 December 2099."""
    return date.toordinal() - _DAY_0.toordinal()


def date_of(day: int) -> datetime.date:
    """The date of a day's number."""
    return _DAY_0 + datetime.timedelta(days=day)


def month_of(date: datetime.date) -> int:
    """The number of the month that a date lies in: 0 is January 2000, 1199 December 2099."""
    return 12 * (date.year - _DAY_0.year) + date.month - 1
