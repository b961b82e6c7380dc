"""An exception for each cause of include/sindhopul.h, with the header's names."""

# Made from causes.txt by causes.py.

from typing import ClassVar, Dict, Type


class Refused(Exception):
    """A call was refused, and nothing was changed by it."""

    number: ClassVar[int]
    """The cause's number, as the C interface returns it."""

    words: ClassVar[str]
    """The cause in words."""

    # How many values are told beside the number.
    _values: ClassVar[int] = 0

    def __str__(self) -> str:
        return f"refused ({self.number}): {self.words}"


class CalendarLengthRefused(Refused):
    number = 11
    words = "the calendar is not 4566 bytes long"


class CalendarTailRefused(Refused):
    number = 12
    words = "the calendar has a session after day 36524"


class CalendarMonthRefused(Refused):
    number = 13
    words = "a month has no session from its first day to its third Friday"
    _values = 1

    def __init__(self, month: int) -> None:
        super().__init__(month)
        self.month = month
        """The first such month."""

    def __str__(self) -> str:
        date = f"{2000 + self.month // 12}-{self.month % 12 + 1:02}"
        return (
            f"refused ({self.number}): month {self.month} ({date}) has no session from its first "
            "day to its third Friday"
        )


class RegisterLengthRefused(Refused):
    number = 14
    words = "the register is not 11264 bytes long"


class RegisterFormRefused(Refused):
    number = 15
    words = "the register is neither empty nor well formed"


class RunningRefused(Refused):
    number = 16
    words = "the register to start is running"


class EmptyRefused(Refused):
    number = 17
    words = "the register is empty"


class StartDayRefused(Refused):
    number = 18
    words = "there is no session on the day of the start"


class SessionDayRefused(Refused):
    number = 19
    words = "the day is not the first session day after the register's"


class TooLateRefused(Refused):
    number = 20
    words = "the first live month would be after March 2099"


class CloseRefused(Refused):
    number = 21
    words = "the close is below 9000 or above 954999"


class AnnounceMonthRefused(Refused):
    number = 22
    words = "the month to announce is not live, or expires on the register's day"


class AnnouncePriceRefused(Refused):
    number = 23
    words = "the price to announce is not on the grid that its month has on the next session day"


class AnnounceKnownRefused(Refused):
    number = 24
    words = "the price to announce lies within its month's ladder, or waits already"


class AnnounceFullRefused(Refused):
    number = 25
    words = "32 announcements wait"


class RowsMonthRefused(Refused):
    number = 26
    words = "the month whose rows are wanted is not live"


class NameLengthRefused(Refused):
    number = 27
    words = "the name is not 11 bytes long"


class NameSeriesRefused(Refused):
    number = 28
    words = "there is no series of this month and price"


class NameByteRefused(Refused):
    number = 29
    words = "a byte of the name cannot stand at its place"
    _values = 1

    def __init__(self, place: int) -> None:
        super().__init__(place)
        self.place = place
        """The first such place, 0 to 10."""

    def __str__(self) -> str:
        return (
            f"refused ({self.number}): the byte at place {self.place} of the name cannot stand "
            "there"
        )


class OutputLengthRefused(Refused):
    number = 30
    words = "the output buffer is too short"


class FileFormRefused(Refused):
    number = 31
    words = "the bytes are no file of series"
    _values = 1

    def __init__(self, place: int) -> None:
        super().__init__(place)
        self.place = place
        """The lowest place at fault."""

    def __str__(self) -> str:
        return f"refused ({self.number}): the bytes are no file of series: at place {self.place}"


_CAUSES: Dict[int, Type[Refused]] = {cause.number: cause for cause in Refused.__subclasses__()}


def raise_unless_accepted(number: int, *values: int) -> None:
    """Raises what a call's number tells, with the values beside it."""
    if number != 0:
        cause = _CAUSES[number]
        raise cause(*values[: cause._values])
