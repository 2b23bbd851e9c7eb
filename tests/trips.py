#!/usr/bin/env python3
"""The cases of the program `trips`, and what the page says of each: writes the program's stdin and stdout.

    python3 tests/trips.py            from the root of the repository

The event latch, open and closed, and the count of missed edges: every CONTROL with both kinds of edges; a relay that bounces; the three things that open the latch, and all
other calls, which do not; the count up to 65,535 and beyond; torn cards; and calls of all kinds in turn. How a line is written, and the page's answers, are in script.py. Of
the calls in turn it is checked here, from the list of them and their answers alone, that the first edge captured by an open latch stays, and that all later ones that match
are counted.
"""
import copy
import itertools
import random
from datetime import date

from refusals import EVERY, closed_zero, form_of, refused_18
from registers import LATCHED, PAGE_TIME, STAMPED, Registers, everything, packet
from script import DAY, SECOND, ZEROS, write_words

COUNTS = (0, 1, 65_534, 65_535)
# CONTROL, and whether the latch is closed: all that a lawful card can have
LATCHES = [(control, closed) for control in range(8) for closed in range(2 if control & 4 else 1)]


def put(s, control, closed, missed):
    s.event(control, *STAMPED)
    s.closed(closed, missed)


def named(control, closed):
    return f"CONTROL {control}, {'closed' if closed else 'open'}"


def edges(s):
    s.say("Both kinds of edges, with each CONTROL and the latch open or closed; bit 0 pending before or not")
    everything(s)
    for control, closed in LATCHES:
        s.say(named(control, closed))
        for falling in range(2):
            for pending, missed in ((26, 0), (31, 65_535)):
                put(s, control, closed, missed)
                s.interrupts(21, pending, 5, 0xC3)
                s.do("e", falling)
    s.say("A closed latch that is all zero")
    closed_zero(s, 5)
    s.do("e", 0)


def bounces(s):
    for control, falling, way in ((5, 0, "n"), (7, 1, "i"), (3, 1, "n")):
        s.say(f"A relay bounces, CONTROL {control}")
        s.fresh()
        s.time(*PAGE_TIME)
        s.call("", "w", 11, control)
        for ticks in (0, 1, 9_999, 20_000, 250):
            s.call("", way, 2, ticks)
            s.do("e", falling)
            s.do("e", 1 - falling)
        for register in (*range(6, 11), 18):
            s.call("", "r", register)
    s.say("Over the end of a year, and with the time set back")
    s.fresh()
    s.time(2001, 365, DAY - 2)
    s.call("", "w", 11, 5)
    for call in (("e", 0), ("n", 1, 1), ("e", 0), ("i", 1, 1), ("e", 0), ("t", 1999, 1, 0, 0, 0), ("e", 0), ("w", 18, 0), ("e", 0), ("t", 2001, 365, 23, 59, 59), ("e", 0)):
        s.do(*call)


def controls(s):
    s.say("CONTROL written over each, with the latch open or closed, and read back; bits that are not named change nothing")
    everything(s)
    high = itertools.cycle((0, 8, 0xFFF8, 0x8000, 0x0100))
    for control, closed in LATCHES:
        s.say(named(control, closed))
        for value in range(8):
            put(s, control, closed, 54_321)
            s.do("w", 11, value + next(high), words=f"to {value}")
        s.call("", "r", 11)
        s.call("", "r", 18)


def openers(s):
    s.say("What opens the latch, from each count; and an edge behind it")
    for control, closed in ((5, 1), (7, 1), (4, 1), (5, 0), (1, 0)):
        everything(s)
        s.say(named(control, closed))
        for missed, value in zip(COUNTS, (0, 1, 0xFFFF, 4)):
            for words, *call in (("register 18", "w", 18, value), ("bit 2", "w", 11, control & 3), ("reset", "x")):
                put(s, control, closed, missed)
                s.do(*call, words=f"{missed} missed, {words}")
                s.do("e", control >> 1 & 1)
    s.say("Whatever is written to register 18")
    everything(s)
    for value in (1, 2, 4, 5, 8, 0x100, 0x8000, 54_321, 0xFFFB, 0xFFFF):
        for closed in (1, 0):
            s.closed(closed, 54_321)
            s.do("w", 18, value)
    s.say("Reset, and the registers behind it; and a reset of a count alone")
    everything(s)
    s.do("x")
    for register in (*range(6, 12), 15, 18):
        s.call("", "r", register)
    s.do("e", 0)
    s.do("e", 1)
    s.closed(0, 9)
    s.do("x")


def turns(s):
    s.say("Capture off and on again, and the other kind, with the latch closed")
    everything(s)
    for control in (4, 5, 6, 7, 4, 7, 5):
        s.do("w", 11, control)
        for call in (("e", 0), ("e", 1), ("k", 3, 0), ("k", 2, 1)):
            s.call("", *call)
            s.call("", "r", 18)
        s.show()
    s.say("Bit 2 set beside a stamp: the next capture closes")
    everything(s)
    for call in (("w", 18, 0), ("w", 11, 1), ("e", 0), ("n", 1, 5), ("e", 0), ("w", 11, 5), ("n", 1, 7), ("e", 1), ("e", 0), ("w", 15, 1),
                 ("e", 0), ("n", 1, 9), ("e", 0), ("e", 0)):
        s.do(*call)
    s.say("Bit 2 cleared: the count stays, and goes on after the next capture with bit 2")
    for call in (("w", 11, 1), ("e", 0), ("n", 1, 11), ("e", 0), ("w", 11, 5), ("n", 1, 3), ("e", 0), ("e", 0), ("r", 18), ("w", 11, 0), ("e", 0), ("w", 11, 7), ("e", 1),
                 ("e", 1), ("r", 18), ("w", 18, 1), ("r", 18), ("e", 1), ("e", 1), ("r", 18)):
        s.do(*call)
    s.say("Register 18 read again and again, and written twice")
    for call in (("e", 1), ("r", 18), ("r", 18), ("w", 18, 3), ("w", 18, 3), ("r", 18), ("r", 11)):
        s.do(*call)


def counting(s):
    s.say("The count up to 65535 and beyond")
    everything(s)
    for missed in (255, 32_767, 65_533, 65_534, 65_535):
        put(s, 5, 1, missed)
        s.say(f"{missed} missed")
        for _ in range(3):
            s.do("e", 0)
            s.call("", "r", 18)
    s.say("By so many edges")
    s.fresh()
    s.time(*PAGE_TIME)
    for call in (("w", 11, 5), ("k", 0, 0), ("k", 70_000, 1), ("k", 1, 0), ("n", 1, 1), ("k", 65_534, 0), ("k", 1, 0), ("k", 1, 0), ("k", 70_000, 0), ("w", 18, 0),
                 ("k", 65_535, 0), ("e", 0), ("e", 0), ("w", 18, 0), ("n", 1, 1), ("k", 65_536, 0), ("e", 0), ("w", 18, 0), ("k", 65_537, 0), ("w", 18, 0), ("k", 65_538, 0),
                 ("w", 11, 7), ("k", 9, 1), ("w", 18, 0), ("n", 1, 1), ("k", 70_000, 1), ("k", 2, 1), ("k", 70_000, 0), ("w", 11, 3), ("n", 1, 1), ("k", 70_000, 1),
                 ("w", 18, 0), ("n", 1, 1), ("k", 3, 1), ("w", 11, 4), ("k", 5, 0), ("k", 5, 1), ("w", 11, 6), ("k", 5, 0), ("k", 5, 1)):
        s.do(*call)


def pending(s):
    s.say("A missed edge raises pending bit 0 alone, from each count; cleared, it rises again; the line")
    everything(s)
    for missed, mask, level in (*((missed, 1, 5) for missed in COUNTS), (65_535, 30, 7), (3, 31, 0)):
        put(s, 7, 1, missed)
        s.interrupts(mask, 0, level, 0xC3)
        s.say(f"{missed} missed, mask {mask}, level {level}")
        for call in (("l",), ("e", 0), ("l",), ("e", 1), ("l",), ("r", 15), ("w", 15, 0xFFFE), ("w", 15, 1), ("l",), ("r", 15), ("r", 18), ("k", 2, 1), ("l",)):
            s.call("", *call)
        s.show()


# calls that open nothing, by what they are about; each done, and most refused too
OTHERS = (
    tuple(("r", register) for register in range(20)),
    (("w", 0, 0xFFFF), ("w", 1, 0), ("w", 6, 0), ("w", 10, 0), ("w", 19, 0), ("w", 255, 0), ("w", 14, 31), ("w", 15, 0xFFFF), ("w", 16, 3), ("w", 17, 18), ("l",)),
    (("w", 12, 1), ("w", 12, 0x80), ("w", 13, 18), ("b", 3, 1, 1), ("b", 80, 1, 0), ("w", 13, 1), ("w", 12, 0x81), ("w", 12, 0x80)),
    (("p", 5), ("p", 4), ("o", 5, *form_of(-9_900)), ("o", 4, 0, 0, 0, 0), ("j", 1), ("o", 5, *form_of(25_000)), ("j", 0), ("o", 5, *form_of(25_000)), ("j", 1)),
    (("t", 2100, 366, 0, 0, 0), ("t", 2004, 366, 23, 59, 59), ("d", 1, 2), ("d", 2, 2), ("q",), ("s", 1000), ("s", 0), ("a", 24, 0, 0, 0), ("a", 0, 0, 0, 0), ("z",),
     ("W", 99), ("W", 100)),
    (("n", 1, 0), ("n", 2, 20_000), ("i", 2, 20_000), ("w", 0, 1), ("n", 0, 1), ("i", 0, 1), ("n", 1, DAY + 1), ("i", 1, DAY + 1), ("s", 0), ("d", 2, 2), ("n", 1, 9),
     ("i", 2, 99), ("q",), ("t", 9999, 365, 23, 59, 59), ("n", 1, SECOND), ("i", 1, SECOND)),
)
PACKETS = "A3", "G-0009900", "G+0009901", "HND", "IE", "KH", "A4", "A", "A9", "Z"


def others(s):
    s.say("No other call opens the latch or closes it, or changes the count or the stamp")
    for control, closed, missed in ((5, 1, 54_321), (6, 0, 65_535), (3, 0, 1)):
        s.say(f"{named(control, closed)}, {missed} missed")
        everything(s)
        put(s, control, closed, missed)
        for calls in OTHERS:
            for call in calls:
                s.call("", *call)
            s.show()
        s.settings(6, 0, 1, 1, 1, 0)
        s.jam(1)
        for text in PACKETS:
            s.feed(packet(text))
            s.call(text, "w", 12, 0x80)
        s.show()


def torn(s):
    s.say("Torn cards: register 18, CONTROL, edges and reset are refused too")
    some = ("r", 18), ("w", 18, 0), ("w", 11, 4), ("e", 0), ("e", 1), ("k", 2, 0), ("x",)
    for control in range(4):
        s.fresh()
        if control & 1:
            put(s, control, 1, 7)
        else:
            closed_zero(s, control)
        refused_18(s, named(control, 1), some if control else EVERY + some)
    for control, closed in ((8, 0), (13, 1), (255, 0), (255, 1)):
        s.fresh()
        put(s, control, closed, 65_535)
        refused_18(s, named(control, closed), some)
    for words, latch in (("with digit A", (0, 0x0100, 0, 0, 0xA000)), ("of hour 24", (0, 0x0124, 0, 0, 0))):
        s.fresh()
        s.event(5, *latch)
        s.closed(1, 0)
        refused_18(s, f"a closed latch {words}", some)
    s.fresh()
    put(s, 5, 1, 7)
    s.settings(4, 1, 0, 0, 0, 0)
    refused_18(s, "mode 4, and a closed latch", some)
    s.say("The nearest that are not torn: each CONTROL, with the latch as it can be, a count or none, and a stamp or none")
    for control, closed in LATCHES:
        s.say(named(control, closed))
        for missed in (0, 65_535):
            for latch in (STAMPED, ZEROS):
                s.fresh()
                s.event(control, *latch)
                s.closed(closed, missed)
                assert s.card.lawful()
                s.call("taken", "r", 18)
        s.do("w", 18, 0)
    s.fresh()
    s.time(2001, 1, 0)
    s.event(5, *LATCHED)
    s.closed(1, 3)
    s.do("e", 0, words="day 366 in a closed latch, in 2001")


def outside(s):
    s.say("No such register")
    everything(s)
    for register in (19, 20, 31, 32, 50, 82, 146, 255):
        s.call("", "r", register)
        s.call("", "w", register, 0)
    s.show()


def opens(letter, *numbers):
    return letter == "x" or letter == "w" and (numbers[0] == 18 or numbers[0] == 11 and not numbers[1] & 4)


def instant(year, day, tick):
    return (date(year, 1, 1).toordinal() + day - 1) * DAY + tick


def first_trip(before, made):
    """Whether the latch is closed, the latch, and the count, after calls that do not open it, from a card with an open latch and bit 2 set."""
    control, now, matching = before.control, instant(*before.time), []
    for (letter, *numbers), values in made:
        if letter == "w" and numbers[0] == 11:
            control = numbers[1]
        elif letter == "t" and values[0] == 0:
            year, day, hour, minute, second = numbers
            now = instant(year, day, (hour * 3600 + minute * 60 + second) * SECOND)
        elif letter in "ni":
            now += values[1]
        elif letter in "ek" and control % 4 == (3 if numbers[-1] else 1):
            matching += [now] * (numbers[0] if letter == "k" else 1)
    if not matching:
        return 0, before.event_latch, before.missed
    days, tick = divmod(matching[0], DAY)
    return 1, write_words(date.fromordinal(days).timetuple().tm_yday, tick)[1:], min(65_535, before.missed + len(matching) - 1)


def any_call(draw, may_open):
    """Edges, CONTROL and register 18 come more often than others."""
    kind = draw.randrange(40)
    if kind < 16:
        return "e", draw.randrange(2)
    if kind < 18:
        return "k", draw.choice((0, 1, 2, 3, 20_000, 50_000)), draw.randrange(2)
    if kind < 23:
        return "w", 11, draw.choice((0, 0, 8, 0xFFF8)) + draw.choice((5, 5, 7, 7, 4, 6, *((0, 1, 2, 3) if may_open else ())))
    if kind == 23 and may_open:
        return "w", 18, draw.randrange(65_536)
    if kind == 24 and may_open and draw.randrange(2):
        return ("x",)
    if kind < 27:
        return "w", 15, draw.choice((1, 0, 0xFFFE, 0xFFFF))
    if kind < 32:
        return draw.choice("ni"), draw.choice((1, 2)), draw.choice((1, 2, 999, 5_000))
    if kind < 34:
        return "t", draw.choice((1999, 2004)), draw.choice((1, 59, 365, 366)), draw.randrange(24), draw.randrange(60), draw.randrange(60)
    if kind < 36:
        return "r", draw.choice((0, 6, 8, 11, 15, 18, 18, 19))
    return draw.choice([call for calls in OTHERS[1:5] for call in calls])


def chain(s, draw, calls, may_open):
    """So many calls; and what each stretch of them leaves, from an open latch with bit 2 set up to what opens it."""
    before, made = None, []

    def check():
        assert before is None or (s.card.closed, s.card.event_latch, s.card.missed) == first_trip(before, made)

    for _ in range(calls):
        call = any_call(draw, may_open)
        if opens(*call):
            check()
            before = None
        elif before is None and s.card.control & 4 and not s.card.closed:
            before, made = copy.copy(s.card), []
        made.append((call, s.call("then", *call)))
        if draw.randrange(3) == 0:
            s.show()
    check()
    s.show()


def chains(s):
    draw = random.Random(8)
    for control, missed, may_open in ((5, 0, 0), (7, 3, 0), (4, 65_530, 0), (6, 65_535, 0), (7, 0, 0), (0, 0, 1), (5, 0, 1), (3, 40_000, 1), (7, 0, 1), (5, 9, 1)):
        s.say(f"In turn, {'all calls' if may_open else 'calls that open nothing'}: {named(control, 0)}, {missed} missed")
        everything(s)
        put(s, control, 0, missed)
        chain(s, draw, 70, may_open)


if __name__ == "__main__":
    s = Registers()
    for part in (edges, bounces, controls, openers, turns, counting, pending, others, torn, outside, chains):
        part(s)
    s.write_files("trips")
