#!/usr/bin/env python3
"""Times for the program `times`, and the words that the page gives each: writes the program's stdin and stdout.

    python3 tests/times.py            from the root of the repository

Every day of the year, at its first and its last tick; every value of each pair of digits of the time of day, and of its last digit, with all digits of the time of day in
front of it at their least or at their most, and all behind it likewise, the day changing with each; and a few days and ticks outside the ranges. How a line is written,
and the words of a time, are in script.py.
"""
from script import DAY, Script, write_words

# how many values a field has, from the hour to the last digit; the last is one tick
FIELDS = (24, 60, 60, 100, 100, 100, 10)
OUTSIDE = (0, 0), (367, 0), (65_535, 0), (1, DAY), (366, 2**64 - 1), (0, DAY)


def tick_of(values):
    tick = 0
    for count, value in zip(FIELDS, values):
        tick = tick * count + value
    return tick


def times():
    """Each a day and a tick of day."""
    for day in range(1, 367):
        yield day, 0
        yield day, DAY - 1
    day = 0
    for place, count in enumerate(FIELDS):
        for value in range(count):
            for most_before in (0, 1):
                for most_behind in (0, 1):
                    before = [(n - 1) * most_before for n in FIELDS[:place]]
                    behind = [(n - 1) * most_behind for n in FIELDS[place + 1:]]
                    day = day % 366 + 1
                    yield day, tick_of([*before, value, *behind])
    yield from OUTSIDE


if __name__ == "__main__":
    s = Script()
    for time in times():
        s.alone("words", "f", time, write_words(*time))
    s.write_files("times")
