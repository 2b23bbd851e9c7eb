#!/usr/bin/env python3
"""The cases of the program `waits`, and what the page says of each: writes the program's stdin and stdout.

    python3 tests/waits.py            from the root of the repository

Every case is made by value, and then in place. Behind each wait the card is shown. How a line is written, and the page's answers, are in script.py: what a wait must
list is found by going through its window tick by tick.
"""
from script import DAY, MILLISECOND, SECOND, WAIT_PLACES, Script


class Waits(Script):
    """A script whose waits are all made by value, or all in place."""

    way = "n"

    def wait(self, places, ticks, words=""):
        """Gives the ticks passed, so that a chain can go on with the rest."""
        passed = self.call(words and f"{words} {ticks}, {places} places", self.way, places, ticks)[1]
        self.show()
        return passed

    def chain(self, places, ticks, set_up):
        """A wait cut as often as its row is full, beside the one wait."""
        set_up()
        rest = ticks
        while rest:
            rest -= self.wait(places, rest, "link")
        set_up()
        self.wait(WAIT_PLACES, ticks, "beside it")

    def set(self, *calls):
        for call in calls:
            self.call("", *call)


def starred(s, ms=200):
    s.fresh()
    s.set(("t", 2004, 1, 0, 0, 0), ("d", 2000, 2000), ("s", ms))


def examples(s):
    s.say("The starred waits")
    for places, ms in ((8, 200), (2, 200), (8, 400)):
        starred(s, ms)
        s.wait(places, SECOND)
    s.say("As many places as firing ticks, one fewer, one more; and a window that ends before the last of them, with as many places as are left")
    for places in (4, 3, 5):
        starred(s)
        s.wait(places, SECOND)
    starred(s)
    s.wait(3, SECOND - 1)


def chains(s):
    for places in (1, 2, 3):
        s.say(f"A chain with {places} of the places, and the one wait")
        s.chain(places, SECOND + 2_345_678, lambda: starred(s, 400))
    s.say("A chain whose dividers make three sources meet on a tick")

    def meeting():
        s.fresh()
        s.set(("t", 2003, 59, 12, 30, 1), ("d", 2500, 2000), ("s", 0))

    s.chain(2, SECOND + 1, meeting)


def ends(s):
    for words, year, day in (("Midnight", 2004, 1), ("Day 365 of a year of 366 days", 2004, 365), ("The end of a year of 366 days", 2004, 366),
                             ("The end of a year of 365 days", 2001, 365)):
        s.say(words)
        s.fresh()
        s.set(("t", year, day, 23, 59, 59), ("d", 4000, 2500), ("a", 0, 0, 0, 0))
        s.wait(2, SECOND - 1)
        s.wait(2, 1)
        s.wait(1, 2_000_000)
    s.say("A chain over the end of a year, with a strobe just before it, and the one wait")

    def last_second():
        s.fresh()
        s.set(("t", 2001, 365, 23, 59, 59), ("d", 3000, 1000), ("a", 23, 59, 59, 999))

    s.chain(1, SECOND + 100, last_second)


def named_years(s):
    for year in (1900, 2000, 2100, 2400, 9900, 9996):
        s.say(f"The end of day 365 of {year}, and of day 366, set and held")
        s.fresh()
        for day in (365, 366):
            s.set(("t", year, day, 23, 59, 59))
            s.wait(1, SECOND)
        s.time(year, 366, DAY - 1)
        s.wait(1, 1)


def last_ticks(s):
    s.say("The last ticks of 9999")
    s.fresh()
    s.set(("t", 9999, 365, 23, 59, 59))
    s.wait(1, SECOND, "wait past them")
    s.wait(1, SECOND - 2, "wait to the last but one")
    s.wait(1, 2, "wait past it")
    s.wait(1, 1, "wait to the last")
    s.wait(1, 0)
    s.wait(1, 1)
    s.wait(1, DAY)
    s.say("Refused for the whole wait, though its row is full before")
    s.fresh()
    s.set(("t", 9999, 365, 23, 59, 59), ("d", 2, 2))
    s.wait(2, SECOND)
    s.wait(2, SECOND - 1)


def refusals(s):
    s.say("A wait of 0, and refusals in their order: 18, 15, 14, 16")
    starred(s)
    s.wait(3, 0)
    s.wait(0, 0)
    s.wait(0, 1)
    s.wait(0, DAY)
    s.wait(0, DAY + 1)
    s.wait(3, DAY + 1)
    s.wait(1, DAY)
    s.set(("t", 9999, 365, 23, 59, 59))
    s.wait(0, SECOND)
    s.wait(0, DAY + 1)
    s.wait(3, DAY)
    s.say("The same card in mode 4, which is not lawful")
    s.settings(4, 1, 0, 0, 0, 0)
    s.wait(0, DAY + 1)
    s.wait(3, SECOND)
    s.say("A count that is not below the product of its dividers")
    s.fresh()
    s.sources(0, 0, 2000, 2000, 4_000_000)
    s.wait(3, SECOND)


def strobes(s):
    s.say("Strobe each second at 0 ms, at 999 ms, and off again")
    s.fresh()
    s.set(("s", 0))
    s.wait(2, SECOND)
    s.set(("s", 999))
    s.wait(2, SECOND - MILLISECOND - 1)
    s.wait(2, 1)
    s.wait(2, SECOND)
    s.set(("z",))
    s.wait(2, SECOND)
    s.say("Strobe daily: before it, on it, and the second after")
    s.fresh()
    s.set(("t", 1999, 200, 13, 7, 8), ("a", 13, 7, 9, 1))
    s.wait(2, SECOND + MILLISECOND - 1)
    s.wait(2, 1)
    s.wait(2, SECOND)


def dividers(s):
    s.say("The least dividers, 2 and 2, and off again")
    s.fresh()
    s.set(("d", 2, 2))
    s.wait(10, 39)
    s.wait(10, 41)
    s.wait(3, 1_000)
    s.set(("q",))
    s.wait(3, 1_000)
    s.say("The largest, 65535 and 65535, five ticks before they fall, and a second later")
    s.fresh()
    s.set(("t", 2004, 60, 1, 2, 3))
    s.sources(0, 0, 65_535, 65_535, 65_535 * 65_535 - 5)
    s.wait(3, 4)
    s.wait(3, 1)
    s.wait(3, SECOND)
    s.say("Setting the same dividers again starts the count at 0")
    s.set(("d", 65_535, 65_535))
    s.wait(3, 5)


def pending(s):
    s.say("Pending bits: of what is listed alone; cleared ones rise again, others stay")
    starred(s)
    s.wait(1, SECOND)
    s.wait(1, 3_000_000)
    s.set(("w", 15, 2))
    s.wait(1, 1_000_000)
    s.wait(1, 4_000_000)
    s.set(("w", 15, 4 + 8))
    s.wait(1, 1)
    s.set(("w", 15, 0xFFFF))
    s.wait(9, SECOND)
    s.say("An event's pending bit, mask, level, vector, latches, the jam off, a packet's offset and a byte in the queue change nothing of the list, and stay")
    starred(s)
    s.set(("w", 0, 0), ("w", 11, 1), ("w", 14, 31), ("w", 16, 7), ("w", 17, 255), ("j", 0))
    s.feed(b"\x01G+0025000\x17")
    s.set(("w", 12, 0x80), ("w", 13, 0x41), ("e", 0))
    s.wait(8, SECOND)


if __name__ == "__main__":
    s = Waits()
    for s.way, words in (("n", "BY VALUE"), ("i", "IN PLACE")):
        s.say(words)
        for part in (examples, chains, ends, named_years, last_ticks, refusals, strobes, dividers, pending):
            part(s)
    s.write_files("waits")
