#!/usr/bin/env python3
"""Compares what `sindhopul why` says with the same told apart from it, from the specification.

usage: why.py SINDHOPUL CALENDAR REGISTER ..
"""

import random
import subprocess
import sys
from bisect import bisect_left
from datetime import date, timedelta
from functools import lru_cache

from origins import ORIGINS

LAST_FIRST_MONTH = 1190
QUESTIONS = 250
BANDS = (
    ((5, 475, 5), (480, 990, 10), (1000, 9975, 25)),
    ((10, 470, 10), (480, 980, 20), (1000, 9950, 50)),
    ((20, 460, 20), (480, 960, 40), (1000, 9900, 100)),
)
GRIDS = [[price for low, high, step in bands for price in range(low, high + 1, step)] for bands in BANDS]
NEIGHBOURS = (16, 8, 4)

program, calendar_path, *register_paths = sys.argv[1:]
calendar = int.from_bytes(open(calendar_path, "rb").read(), "little")


def has_session(day):
    return calendar >> day & 1


def next_session(day):
    return next(later for later in range(day + 1, 36526) if later == 36525 or has_session(later))


def shown(day):
    return (date(2000, 1, 1) + timedelta(days=day)).isoformat()


def month_shown(month):
    return f"{2000 + month // 12}-{month % 12 + 1:02}" if month < 1200 else f"month {month}"


def expiry(month):
    first = (date(2000 + month // 12, month % 12 + 1, 1) - date(2000, 1, 1)).days
    third_friday = next(day for day in range(first, first + 7) if day % 7 == 6) + 14
    return next(day for day in range(third_friday, -1, -1) if has_session(day))


EXPIRIES = [expiry(month) for month in range(1200)]


def first_live(day):
    return bisect_left(EXPIRIES, day)


def live_months(first):
    return [first, first + 1, first + 2] + [month for month in range(first + 3, first + 15) if month % 3 == 2][:3]


def tier_of(first, month):
    return 0 if month == first else 1 if month <= first + 2 else 2


def first_session_with(first, from_day):
    """The first session day from a day on that has this first live month, or a later one."""
    day = from_day
    while first_live(day) < first or not has_session(day):
        day += 1
    return day


def required(tier, close):
    grid = GRIDS[tier]
    nearest = min(range(len(grid)), key=lambda place: (abs(100 * grid[place] - close), -grid[place]))
    return grid[nearest - NEIGHBOURS[tier]], grid[nearest + NEIGHBOURS[tier]]


@lru_cache(None)
def close_for(tier, price, above):
    """The least close that requires a price so high, or the greatest that requires one so low."""
    closes = range(9_000, 955_000)
    if above:
        place = bisect_left(closes, True, key=lambda close: required(tier, close)[1] >= price)
    else:
        place = bisect_left(closes, True, key=lambda close: required(tier, close)[0] > price) - 1
    return closes[place] if 0 <= place < len(closes) else None


class Register:
    def __init__(self, path):
        halves = memoryview(open(path, "rb").read()).cast("H")
        self.day, rows, waiting = halves[1], halves[2], halves[0] // 256
        self.waiting = [(halves[4 + 2 * i], halves[5 + 2 * i]) for i in range(waiting)]
        self.rows = [tuple(halves[68 + 4 * i : 72 + 4 * i]) for i in range(rows)]
        self.first = first_live(self.day)

    def why(self, month, price):
        if month < 1200 and price in GRIDS[0]:
            year = month // 12
            call, put = (f"OW20{chr(65 + 12 * kind + month % 12)}{year:02}{price:04}" for kind in (0, 1))
            series = f"{call} and {put}: "
        else:
            series = f"{month_shown(month)} at {price}: "
        if month not in live_months(self.first):
            return [series + f"not listed: {month_shown(month)} is not live", *self.not_live(month)]
        return self.live(series, month, price)

    def not_live(self, month):
        live = "live months: " + " ".join(map(month_shown, live_months(self.first)))
        if month >= 1200:
            return ["the last month is 2099-12", live]
        if month < self.first:
            return [f"it expired on {shown(EXPIRIES[month])}", live]
        enters = next(first for first in range(self.first, 1200) if month in live_months(first))
        if enters > LAST_FIRST_MONTH:
            return ["it never becomes live: a register ends with March 2099 (cause 20)", live]
        day = shown(first_session_with(enters, self.day))
        return [f"it becomes live on {day}; the close before that session sets its first span", live]

    def live(self, series, month, price):
        rows = {row[1]: row for row in self.rows if row[0] == month}
        low, high = min(rows), max(rows)
        tier = tier_of(self.first, month)
        ladder = f"{month_shown(month)}: tier {'NMF'[tier]}, expires {shown(EXPIRIES[month])}"
        span = f"span {low} to {high}"
        if price in rows:
            _, _, since, origin = rows[price]
            return [series + f"listed since {shown(since)}: {ORIGINS[origin]}", f"{ladder}, {span}"]
        if price in GRIDS[tier]:
            said = [series + f"not listed: outside the {span}", ladder]
        else:
            bands = ", ".join(f"{low} to {high} by {step}" for low, high, step in BANDS[tier])
            below = [f" {p} (below)" for p in GRIDS[tier] if p < price][-1:]
            above = [f" {p} (above)" for p in GRIDS[tier] if p > price][:1]
            said = [
                series + f"not listed: not on the grid of tier {'NMF'[tier]}",
                f"{ladder}, {span}",
                f"its grid: {bands}",
                "the nearest:" + "".join(below + above),
            ]
        return said + self.ahead(month, price, tier, low, high)

    def ahead(self, month, price, tier, low, high):
        if EXPIRIES[month] <= self.day:
            return ["it expires on the register's day: no later session can list it"]
        day = next_session(self.day)
        first = first_live(day)
        if first > LAST_FIRST_MONTH:
            return ["the register takes no further session (cause 20)"]
        within = low <= price <= high
        listed = ", on whose grid it is" + (": listed then" if within else "; outside the span so far")
        then = tier_of(first, month)
        if price not in GRIDS[then]:
            finer = [t for t in (1, 0) if price in GRIDS[t]]
            if not finer:
                return ["no tier has it on its grid: it is never listed"]
            reached = next(f for f in range(first, 1200) if tier_of(f, month) <= finer[0])
            if reached > LAST_FIRST_MONTH:
                return ["no finer tier is reached: a register ends with March 2099 (cause 20)"]
            return [f"from {shown(first_session_with(reached, day))} in tier {'NMF'[finer[0]]}{listed}"]
        said = []
        if then != tier:
            said.append(f"from {shown(day)} in tier {'NMF'[then]}" + ("" if price in GRIDS[tier] else listed))
        return said if within else said + self.outside(month, price, then, price > high, day)

    def outside(self, month, price, tier, above, day):
        beyond = [p for m, p in self.waiting if m == month and (p >= price if above else p <= price)]
        if price in beyond:
            return [f"{price} waits as an announcement: the session of {shown(day)} lists it"]
        if beyond:
            return [f"{beyond[0]} waits as an announcement: the session of {shown(day)} lists all prices up to there"]
        close = close_for(tier, price, above)
        side = "more" if above else "less"
        said = "no close brings it in"
        if close is not None:
            said = f"a close of {close / 100:.2f} or {side} before {shown(day)} brings it in"
        if len(self.waiting) == 32:
            return [said, "an announcement is refused by cause 25: 32 wait already"]
        command = f"sindhopul announce CALENDAR REGISTER {month_shown(month)} {price}"
        return [said, f"an announcement brings it in: {command}"]


def questions(register, chance):
    """Months around the live ones, and prices on every grid, between them and past their ends."""
    for _ in range(QUESTIONS):
        month = max(0, register.first + chance.randint(-3, 16))
        price = chance.choice((chance.choice(GRIDS[chance.randint(0, 2)]), chance.randint(0, 10_100)))
        yield month, price


compared = 0
for seed, path in enumerate(register_paths):
    register = Register(path)
    for month, price in questions(register, random.Random(seed)):
        command = [program, "why", calendar_path, path, str(month), str(price)]
        answer = subprocess.run(command, capture_output=True, text=True, check=True).stdout
        said = [line.strip() for line in answer.splitlines()]
        wanted = register.why(month, price)
        if said != wanted:
            sys.exit("\n  ".join(["why: " + " ".join(command[1:]), "said:", *said, "wanted:", *wanted]))
        compared += 1
print(f"why: {compared} answers")
