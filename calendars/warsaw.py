#!/usr/bin/env python3
"""Writes the list of days without session in Warsaw, 2000 to 2099, by rule.

    python3 calendars/warsaw.py >calendars/warsaw.txt
"""

from datetime import date, timedelta

YEARS = range(2000, 2100)

# Month, day, first year, what it is.
FIXED = [
    (1, 1, 2000, "New Year"),
    (1, 6, 2011, "Epiphany"),
    (5, 1, 2000, "Labour Day"),
    (5, 3, 2000, "Constitution Day"),
    (8, 15, 2000, "Assumption"),
    (11, 1, 2000, "All Saints"),
    (11, 11, 2000, "Independence Day"),
    (12, 24, 2000, "Christmas Eve"),
    (12, 25, 2000, "Christmas Day"),
    (12, 26, 2000, "second day of Christmas"),
    (12, 31, 2000, "New Year's Eve"),
]

# Days from Easter Sunday, what it is. Easter and Whit Sunday need no line: a Sunday has no session.
MOVABLE = [
    (-2, "Good Friday"),
    (1, "Easter Monday"),
    (60, "Corpus Christi"),
]

# Public holidays of one year alone.
ONCE = {date(2018, 11, 12): "100 years of independence"}

HEAD = """\
# Days without session in Warsaw, 2000 to 2099, for `sindhopul calendar`. Made by rule; not an official list.
#
# Saturdays and Sundays have no session and are not listed. Listed are the weekdays among:
#   1 January, 6 January (since 2011), 1 May, 3 May, 15 August, 1 November, 11 November, 25 and 26 December;
#   Good Friday, Easter Monday, Corpus Christi; 24 and 31 December; 12 November 2018, a public holiday once.
# The rules are those of today carried back and forward. The sessions that the exchange really held in past years
# differ, and a law or a resolution of the exchange may change any later year: see calendars/README.md, and compare
# each coming year with the exchange's own list.
#
# Made by: python3 calendars/warsaw.py >calendars/warsaw.txt
"""


def easter(year):
    """Easter Sunday of the Gregorian calendar (Meeus, Jones, Butcher)."""
    golden = year % 19
    century, of_century = divmod(year, 100)
    leap_centuries, century_rest = divmod(century, 4)
    correction = (century - (century + 8) // 25 + 1) // 3
    moon = (19 * golden + century - leap_centuries - correction + 15) % 30
    leaps, rest = divmod(of_century, 4)
    weekday = (32 + 2 * century_rest + 2 * leaps - moon - rest) % 7
    late = (golden + 11 * moon + 22 * weekday) // 451
    month, day = divmod(moon + weekday - 7 * late + 114, 31)
    return date(year, month, day + 1)


def holidays(year):
    """Each day of the year that the rules name, with its name."""
    days = {date(year, month, day): name for month, day, since, name in FIXED if year >= since}
    days.update({easter(year) + timedelta(days=after): name for after, name in MOVABLE})
    days.update({day: name for day, name in ONCE.items() if day.year == year})
    return days


def main():
    print(HEAD, end="")
    for year in YEARS:
        print()
        for day, name in sorted(holidays(year).items()):
            if day.weekday() < 5:
                print(f"{day} # {name}")


if __name__ == "__main__":
    main()
