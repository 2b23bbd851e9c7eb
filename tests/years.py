#!/usr/bin/env python3
"""The years 1 to 9999, each by its days, for the program `years`: writes the program's stdin and stdout.

    python3 tests/years.py            from the root of the repository

stdin has a byte for each year, the last digit of how many days it has. stdout has a line for each, with a space before each number:

    the year and its days
    the number when the day after its last one is set, at 23:59:59, and when a card that holds that day is asked for its line
    the number when its last second is set, and when 10,000,000 ticks are waited from there, with room for one record
    year, day and tick of the card after that wait
    the days from day 1 of year 1 to day 1 of the year

All of it is from Python's own calendar and the page; nothing of crates/ is read.
"""
from datetime import date, timedelta

LAST_SECOND = 863_990_000_000


def line(year):
    last = date(year, 12, 31)
    days = last.timetuple().tm_yday
    if last == date.max:
        wait, then, tick = 16, last, LAST_SECOND
    else:
        wait, then, tick = 0, last + timedelta(days=1), 0
    return year, days, 11, 18, 0, wait, then.year, then.timetuple().tm_yday, tick, (date(year, 1, 1) - date.min).days


if __name__ == "__main__":
    lines = [line(year) for year in range(1, 10_000)]
    with open("crates/years/stdin", "w") as out:
        out.write("".join(str(days % 10) for _, days, *_ in lines))
    with open("crates/years/stdout", "w") as out:
        out.writelines("".join(f" {value}" for value in values) + "\n" for values in lines)
