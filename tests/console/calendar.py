#!/usr/bin/env python3
"""The bytes that `sindhopul calendar LIST FILE` must write, computed apart from it.

usage: calendar.py LIST >FILE
"""

import sys
from datetime import date, timedelta

words = [line.split("#")[0].strip() for line in open(sys.argv[1], encoding="ascii")]
without = {date.fromisoformat(word) for word in words if word and word[0] != "+"}
extra = {date.fromisoformat(word[1:]) for word in words if word[:1] == "+"}

# As one number, bit n is day n.
sessions, day, bit = 0, date(2000, 1, 1), 1
while day < date(2100, 1, 1):
    if day in extra or (day.isoweekday() <= 5 and day not in without):
        sessions += bit
    day, bit = day + timedelta(days=1), bit * 2
sys.stdout.buffer.write(sessions.to_bytes(4566, "little"))
