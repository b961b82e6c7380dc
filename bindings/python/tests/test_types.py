"""What the classes add to the calls of the C interface."""

import doctest
import gc
import pickle
import re
import unittest
from datetime import date
from pathlib import Path

import sindhopul
from sindhopul import Calendar, NewSeries, Origin, OptionType, Register, Series, read_file

HEADER = Path(__file__).parents[3] / "include" / "sindhopul.h"

MONDAY = 9816
NOVEMBER = 322
CLOSE = 241337

WEEKDAYS = Calendar.with_sessions(day for day in range(36525) if day % 7 >= 2)

# None of these fits into 32 bits; cut short, some would be numbers that are accepted.
BEYOND = (-1, 2**32, 2**32 + MONDAY, 2**64 + NOVEMBER)


def started() -> Register:
    register = Register()
    register.start(WEEKDAYS, MONDAY, CLOSE)
    return register


class Calendars(unittest.TestCase):
    def test_sessions(self) -> None:
        friday = MONDAY + 4
        self.assertTrue(WEEKDAYS.has_session(friday))
        self.assertFalse(WEEKDAYS.has_session(friday + 1))
        for day in (-1, 36525, 36528, 10**6):
            self.assertFalse(WEEKDAYS.has_session(day))
        self.assertEqual(WEEKDAYS.next_session(friday), MONDAY + 7)
        self.assertEqual(WEEKDAYS.next_session(36523), 36524)
        self.assertIsNone(WEEKDAYS.next_session(36524))

    def test_bytes(self) -> None:
        self.assertEqual(Calendar(bytes(WEEKDAYS)), WEEKDAYS)
        self.assertEqual(Calendar(memoryview(bytes(WEEKDAYS))), WEEKDAYS)
        self.assertEqual(hash(Calendar(bytes(WEEKDAYS))), hash(WEEKDAYS))
        self.assertNotEqual(Calendar.with_sessions(range(36525)), WEEKDAYS)
        with self.assertRaises(TypeError):
            Calendar(4566)

    def test_days_outside(self) -> None:
        for day in (-1, 36525, 10**6):
            with self.assertRaises(sindhopul.CalendarTailRefused):
                Calendar.with_sessions([day])

    def test_missing_month(self) -> None:
        with self.assertRaises(sindhopul.CalendarMonthRefused) as caught:
            Calendar.with_sessions(day for day in range(36525) if not 9648 <= day <= 9666)
        self.assertEqual(caught.exception.month, 317)
        self.assertIn("month 317 (2026-06)", str(caught.exception))


class Registers(unittest.TestCase):
    def test_saved_and_loaded(self) -> None:
        register = started()
        self.assertEqual(Register(bytes(register)), register)
        self.assertIsInstance(register.data, bytearray)
        self.assertEqual(Register(register.data), register)
        self.assertNotEqual(Register(), register)
        with self.assertRaises(TypeError):
            Register(11264)

    def test_loaded_bytes_are_a_copy(self) -> None:
        data = bytearray(11264)
        Register(data).start(WEEKDAYS, MONDAY, CLOSE)
        self.assertEqual(data, bytearray(11264))

    def test_day(self) -> None:
        self.assertIsNone(Register().day)
        self.assertEqual(started().day, MONDAY)

    def test_data_can_change_its_length_again(self) -> None:
        register = started()
        register.rows(WEEKDAYS, NOVEMBER)
        gc.collect()
        register.data.append(0)
        with self.assertRaises(sindhopul.RegisterLengthRefused):
            register.rows(WEEKDAYS, NOVEMBER)
        register.data.clear()
        with self.assertRaises(sindhopul.RegisterLengthRefused):
            register.rows(WEEKDAYS, NOVEMBER)

    def test_rows_are_tuples(self) -> None:
        row = started().rows(WEEKDAYS, NOVEMBER)[0]
        self.assertEqual(row, (NOVEMBER, 2025, MONDAY, Origin.START))
        self.assertEqual(row.name(OptionType.PUT), "OW20W262025")

    def test_numbers_beyond_32_bits(self) -> None:
        for number in BEYOND:
            with self.assertRaises(sindhopul.StartDayRefused):
                Register().start(WEEKDAYS, number, CLOSE)
            with self.assertRaises(sindhopul.CloseRefused):
                Register().start(WEEKDAYS, MONDAY, number)
            register = started()
            with self.assertRaises(sindhopul.SessionDayRefused):
                register.session(WEEKDAYS, number, CLOSE)
            with self.assertRaises(sindhopul.AnnounceMonthRefused):
                register.announce(WEEKDAYS, number, 3100)
            with self.assertRaises(sindhopul.AnnouncePriceRefused):
                register.announce(WEEKDAYS, NOVEMBER, number)
            with self.assertRaises(sindhopul.RowsMonthRefused):
                register.rows(WEEKDAYS, number)
            self.assertEqual(register, started())

    def test_numbers_are_whole(self) -> None:
        with self.assertRaises(TypeError):
            Register().start(WEEKDAYS, MONDAY, 2413.37)


class Names(unittest.TestCase):
    def test_text_and_bytes(self) -> None:
        series = Series(323, OptionType.CALL, 2400)
        self.assertEqual(Series.read("OW20L262400"), series)
        self.assertEqual(Series.read(b"OW20L262400"), series)

    def test_wrong_byte(self) -> None:
        with self.assertRaises(sindhopul.NameByteRefused) as caught:
            Series.read("OW20Z262400")
        self.assertEqual(caught.exception.place, 4)
        self.assertIn("place 4", str(caught.exception))
        # A letter of two bytes.
        with self.assertRaises(sindhopul.NameByteRefused):
            Series.read("OW20\u014126240")

    def test_no_such_series(self) -> None:
        for number in BEYOND:
            for series in ((number, 0, 2400), (323, number, 2400), (323, 0, number)):
                with self.assertRaises(sindhopul.NameSeriesRefused):
                    Series(*series).name()


class Files(unittest.TestCase):
    def test_written_and_read(self) -> None:
        register = started()
        data = register.file(WEEKDAYS)
        self.assertIsInstance(data, bytes)
        day, series = read_file(data)
        self.assertEqual((day, len(series)), (MONDAY, 188))
        call = Series(324, OptionType.CALL, 2000)
        self.assertEqual(series[0], NewSeries("OW20A272000", call, Origin.START))
        self.assertEqual(series[-1].name, "OW20X262800")
        self.assertTrue(all(new.series.name() == new.name for new in series))
        self.assertEqual(read_file(bytearray(data)), (day, series))
        self.assertEqual(read_file(memoryview(data)), (day, series))

    def test_nothing_new(self) -> None:
        register = started()
        register.session(WEEKDAYS, MONDAY + 1, CLOSE)
        data = register.file(WEEKDAYS)
        self.assertEqual(data, bytes([1, 2, 0, 0x59, 0x26]))
        self.assertEqual(read_file(data), (MONDAY + 1, []))

    def test_writing_refused(self) -> None:
        with self.assertRaises(sindhopul.EmptyRefused):
            Register().file(WEEKDAYS)
        register = started()
        register.data[7] = 1
        with self.assertRaises(sindhopul.RegisterFormRefused):
            register.file(WEEKDAYS)
        register.data.clear()
        with self.assertRaises(sindhopul.RegisterLengthRefused):
            register.file(WEEKDAYS)

    def test_reading_refused(self) -> None:
        data = started().file(WEEKDAYS)
        twice = data[:35] + data[20:]
        for file, place in ((b"", 0), (data[:19], 19), (twice, 38), (twice[:100], 38)):
            with self.assertRaises(sindhopul.FileFormRefused) as caught:
                read_file(file)
            self.assertEqual(caught.exception.place, place)
            self.assertIn(f"at place {place}", str(caught.exception))
        with self.assertRaises(TypeError):
            read_file("OW20L262400")


class Refusals(unittest.TestCase):
    def test_one_for_each_cause(self) -> None:
        causes = sindhopul.Refused.__subclasses__()
        header = re.findall(r"SINDHOPUL_CAUSE_(\w+) = (\d+)", HEADER.read_text())
        self.assertIn(("SESSION_DAY", "19"), header)
        self.assertEqual(
            [(cause.__name__, cause.number) for cause in causes],
            [(name.title().replace("_", "") + "Refused", int(number)) for name, number in header],
        )
        for cause in causes:
            self.assertIs(getattr(sindhopul, cause.__name__), cause)
            self.assertIn(cause.__name__, sindhopul.__all__)
        self.assertEqual(len({cause.words for cause in causes}), len(causes))

    def test_text(self) -> None:
        with self.assertRaises(sindhopul.EmptyRefused) as caught:
            Register().rows(WEEKDAYS, NOVEMBER)
        self.assertEqual(str(caught.exception), "refused (17): the register is empty")

    def test_values_survive_pickling(self) -> None:
        for refusal in (sindhopul.NameByteRefused(4), sindhopul.FileFormRefused(100)):
            kept = pickle.loads(pickle.dumps(refusal))
            self.assertEqual((kept.number, kept.place), (refusal.number, refusal.place))


class Dates(unittest.TestCase):
    def test_both_ways(self) -> None:
        self.assertEqual(sindhopul.day_of(date(2000, 1, 1)), 0)
        self.assertEqual(sindhopul.day_of(date(2099, 12, 31)), 36524)
        self.assertEqual(sindhopul.date_of(9666), date(2026, 6, 19))
        self.assertEqual(sindhopul.month_of(date(2026, 6, 19)), 317)
        self.assertEqual(sindhopul.month_of(date(2099, 12, 31)), 1199)


def load_tests(_loader, tests, _pattern):
    for module in (sindhopul, sindhopul.files, sindhopul.series):
        tests.addTests(doctest.DocTestSuite(module))
    tests.addTests(doctest.DocFileSuite("../README.md"))
    return tests


if __name__ == "__main__":
    unittest.main()
