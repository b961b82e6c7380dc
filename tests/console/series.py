#!/usr/bin/env python3
"""Files of series, told apart from the program.

usage: series.py bytes REGISTER        the file of a register's new series
       series.py words FILE            what `sindhopul series` says of a file
       series.py many NUMBER           a file of so many series
       series.py faults SINDHOPUL FILE compares each place that the program tells: every byte of the file changed, the file
                                       cut at every length, series exchanged and repeated
"""

import os
import random
import subprocess
import sys
from datetime import date, timedelta

from origins import ORIGINS

PRICES = [*range(5, 476, 5), *range(480, 991, 10), *range(1000, 9976, 25)]
LAST_DAY = 36524
DIGITS = b"0123456789"
LETTERS = b"ABCDEFGHIJKLMNOPQRSTUVWX"


def shown(day):
    return (date(2000, 1, 1) + timedelta(days=day)).isoformat()


def file_of(day, series):
    fields = [b"\1\2\0" + day.to_bytes(2, "little")]
    for name, origin in series:
        fields.append(b"\2\14\0" + name + bytes([origin]))
    return b"".join(fields)


def new_series(register):
    def number(at):
        return int.from_bytes(register[at : at + 2], "little")

    day, series = number(2), {}
    for at in range(136, 136 + 8 * number(4), 8):
        month, price, first, origin = number(at), number(at + 2), number(at + 4), register[at + 6]
        if first == day:
            for letter in LETTERS[month % 12], LETTERS[month % 12 + 12]:
                series[b"OW20%c%02d%04d" % (letter, month // 12, price)] = origin
    return file_of(day, sorted(series.items()))


def words(file):
    day, series = int.from_bytes(file[3:5], "little"), [file[at + 3 : at + 15] for at in range(5, len(file), 15)]
    if not series:
        return f"{shown(day)}: no series\n"
    lines = [f"{shown(day)}: {len(series)} series", "name         month    type  strike  origin"]
    for one in series:
        name, letter = one[:11].decode(), LETTERS.index(one[4])
        month = f"20{name[5:7]}-{letter % 12 + 1:02}"
        lines.append(f"{name}  {month}  {'call' if letter < 12 else 'put '}  {int(name[7:]):6}  {ORIGINS[one[11]]}")
    return "\n".join(lines) + "\n"


def names():
    for letter in LETTERS:
        for year in range(100):
            for price in PRICES:
                yield b"OW20%c%02d%04d" % (letter, year, price)


def allowed(place):
    """The bytes that can stand at a place."""
    if place < 5:
        return (b"\1", b"\2", b"\0", None, None)[place]
    place = (place - 5) % 15
    return (b"\2", b"\14", b"\0", b"O", b"W", b"2", b"0", LETTERS, *[DIGITS] * 6, b"\1\2\3\4\5")[place]


def fault(file):
    """The lowest place that is not as in a file of series, None where there is none: every kind of fault by itself."""
    places = []
    for place, byte in enumerate(file):
        if allowed(place) is not None and byte not in allowed(place):
            places.append(place)
    whole = len(file) >= 5 and (len(file) - 5) % 15 == 0
    if not whole:
        places.append(len(file))
    first_wrong = min(places, default=len(file))
    if 5 <= first_wrong and LAST_DAY < int.from_bytes(file[3:5], "little"):
        places.append(3)
    before = b""
    for at in range(8, first_wrong - 11, 15):
        name = file[at : at + 11]
        if int(name[7:]) not in PRICES or name <= before:
            places.append(at)
        before = name
    return min(places, default=None)


def damaged(file):
    chance = random.Random(31)
    for length in range(len(file)):
        yield file[:length]
    for place in range(len(file)):
        for byte in {0, 255, file[place] ^ 1, file[place] ^ 64, chance.choice(LETTERS + DIGITS), chance.randrange(256)}:
            yield file[:place] + bytes([byte]) + file[place + 1 :]
            yield file[:place] + bytes([byte]) + file[place + 1 : chance.randrange(place, len(file)) + 1]
    series = [file[at : at + 15] for at in range(5, len(file), 15)]
    for i in range(len(series)):
        for j in range(len(series)):
            yield file[:5] + b"".join(series[:i] + [series[j]] + series[i:])
            yield file[:5] + b"".join(series[:i] + [series[j]] + series[i + 1 :])


def compare_faults(program, file):
    for bytes_read in damaged(file):
        place = fault(bytes_read)
        ran = subprocess.run([program, "series", "-"], input=bytes_read, capture_output=True, check=False)
        said = (ran.returncode, ran.stdout.decode(), ran.stderr.decode())
        if place is None:
            good = said == (0, words(bytes_read), "")
        else:
            good = said[:2] == (1, "") and f"cause 31: the bytes are no file of series: place {place}, counted from 0\n" in said[2]
        if good and place is not None:
            found = f"byte {bytes_read[place]}" if place < len(bytes_read) else "the bytes end"
            is_content = place < len(bytes_read) and (allowed(place) is None or bytes_read[place] in allowed(place))
            good = is_content or f": {found} " in said[2]
        if not good:
            sys.exit(f"series.py: {bytes_read!r} has its first fault at {place}, and the program says: {said}")


def main():
    what, *rest = sys.argv[1:]
    if what == "bytes":
        sys.stdout.buffer.write(new_series(open(rest[0], "rb").read()))
    elif what == "words":
        sys.stdout.write(words(open(rest[0], "rb").read()))
    elif what == "many":
        series = zip(names(), [1, 2, 3, 4, 5] * (int(rest[0]) // 5 + 1))
        sys.stdout.buffer.write(file_of(9816, [one for one, _ in zip(series, range(int(rest[0])))]))
    else:
        compare_faults(os.path.realpath(rest[0]), open(rest[1], "rb").read())


main()
