"""The table of conformance cases. What its lines mean stands at its head."""

import ctypes
import unittest
import zlib
from pathlib import Path
from typing import Optional

from sindhopul import (
    Calendar,
    CalendarMonthRefused,
    FileFormRefused,
    NameByteRefused,
    OptionType,
    OutputLengthRefused,
    Refused,
    Register,
    Series,
    _library,
    read_file,
)

# What stands in a buffer before a call writes into it.
FILLED = b"\xa5"

TABLE = Path(__file__).parents[3] / "conformance" / "cases.txt"


def crc(data: bytes) -> str:
    return f"{zlib.crc32(data):08x}"


def into_room(room: int, content: bytes, function, *arguments) -> None:
    """Makes a call with a buffer of so many bytes, which the content is to stand in if it has
    room. The binding's own buffers always have."""
    buffer = ctypes.create_string_buffer(room * FILLED, room)
    number = function(*arguments, buffer, room).number
    if number == OutputLengthRefused.number:
        assert buffer.raw == room * FILLED
        raise OutputLengthRefused
    assert number == 0
    assert buffer.raw == content + (room - len(content)) * FILLED


class Desk:
    """The calendar, the register and the file of a run. A call takes them up as bytes, as one that
    loads them would."""

    def __init__(self) -> None:
        self.calendar = bytearray()
        self.register = bytearray()
        self.file = bytearray()
        self.lent: Optional[Register] = None

    def make(self, what: str, how: str, *words: str) -> None:
        if (what, how) == ("file", "series"):
            name, origin = words
            self.file += bytes([2, 12, 0]) + name.encode() + bytes([int(origin)])
            return
        numbers = [int(word) for word in words]
        lent = {"calendar": self.calendar, "register": self.register, "file": self.file}[what]
        if how == "length":
            (length,) = numbers
            lent[length:] = bytes(max(0, length - len(lent)))
        elif how == "byte":
            place, value = numbers
            lent[place] = value
        elif (what, how) == ("calendar", "every-day"):
            self.calendar = bytearray(bytes(Calendar.with_sessions(range(36525))))
        elif (what, how) == ("calendar", "weekdays"):
            days = (day for day in range(36525) if day % 7 >= 2)
            self.calendar = bytearray(bytes(Calendar.with_sessions(days)))
        elif (what, how) in (("calendar", "open"), ("calendar", "closed")):
            first, last = numbers
            for day in range(first, last + 1):
                bit = 1 << day % 8
                self.calendar[day // 8] |= bit
                if how == "closed":
                    self.calendar[day // 8] ^= bit
        elif (what, how) == ("register", "empty"):
            self.register = bytearray(bytes(Register()))
        elif (what, how) == ("file", "day"):
            (day,) = numbers
            self.file = bytearray([1, 2, 0]) + day.to_bytes(2, "little")
        else:
            raise ValueError(f"there is no line {what} {how}")

    def answer(self, call: str, *words: str) -> str:
        try:
            return " ".join(map(str, (0, *getattr(self, call)(*words))))
        except CalendarMonthRefused as refusal:
            # For rows the table has no month behind 13.
            return "13" if call == "rows" else f"13 {refusal.month}"
        except (NameByteRefused, FileFormRefused) as refusal:
            return f"{refusal.number} {refusal.place}"
        except Refused as refusal:
            return str(refusal.number)

    def check(self):
        Calendar(self.calendar)
        return ()

    def start(self, day, close):
        calendar, register = self.load()
        listed = register.start(calendar, int(day), int(close))
        return (*listed, self.save(register))

    def session(self, day, close):
        calendar, register = self.load()
        listed = register.session(calendar, int(day), int(close))
        return (*listed, self.save(register))

    def announce(self, month, price):
        calendar, register = self.load()
        waiting = register.announce(calendar, int(month), int(price))
        return (waiting, self.save(register))

    def rows(self, month):
        calendar, register = self.load()
        rows = register.rows(calendar, int(month))
        text = "".join(
            f"{month} {price} {first_day} {int(origin)}\n"
            for month, price, first_day, origin in rows
        )
        origins = [sum(row.origin == origin for row in rows) for origin in range(1, 6)]
        lowest, highest = rows[0].price, rows[-1].price
        return (len(rows), lowest, highest, ",".join(map(str, origins)), crc(text.encode()))

    def write(self, month, option_type, price):
        series = Series(int(month), OptionType[option_type.upper()], int(price))
        return (series.name(),)

    def read(self, name=""):
        series = Series.read(name)
        return (series.month, series.option_type.name.lower(), series.price)

    def file_write(self, room):
        calendar, register = self.load()
        file = register.file(calendar)
        lent = (self.calendar, self.register)
        arguments = [value for data in lent for value in (bytes(data), len(data))]
        into_room(int(room), file, _library.file_write, *arguments)
        self.file = bytearray(file)
        return (len(file), crc(file))

    def file_read(self, room):
        day, series = read_file(self.file)
        content = b"".join(new.name.encode() + bytes([new.origin]) for new in series)
        file = bytes(self.file)
        into_room(int(room), content, _library.file_read, file, len(file))
        return (day, len(series), crc(content))

    def load(self):
        calendar = Calendar(self.calendar)
        self.lent = Register(self.register)
        return calendar, self.lent

    def save(self, register: Register) -> str:
        self.register = bytearray(register.data)
        return crc(self.register)


class Conformance(unittest.TestCase):
    def test_every_case(self) -> None:
        desk = Desk()
        calls = 0
        wanted_calls = None
        for number, line in enumerate(TABLE.read_text("ascii").splitlines(), 1):
            asked, _, wanted = line.partition(" = ")
            words = asked.split()
            if not words or words[0].startswith("#"):
                continue
            if words[0] in ("calendar", "register", "file"):
                desk.make(*words)
            elif words[0] == "calls":
                wanted_calls = int(words[1])
            else:
                desk.lent = None
                answer = desk.answer(*words)
                self.assertEqual(answer, wanted, f"line {number}: {asked}")
                if desk.lent is not None:
                    # A refused call changes no byte.
                    self.assertEqual(desk.lent.data, desk.register, f"line {number}: {asked}")
                calls += 1
        self.assertGreater(calls, 0)
        self.assertEqual(calls, wanted_calls)


if __name__ == "__main__":
    unittest.main()
