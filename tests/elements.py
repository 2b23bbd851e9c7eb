#!/usr/bin/env python3
"""Frames and rows of their elements for the program `elements`, and what the page says of each: writes the program's stdin and stdout.

    python3 tests/elements.py         from the root of the repository

Frames written for cards of many times, into rows of several lengths; frames read, with every element changed in turn, with all fields at their ends, and with every set of faults
at once, of which the first in the page's order is told; and rows taken by streams of all kinds, a frame cut at every place among them. How a line is written is in script.py, the
page's answers in irig.py.
"""
import itertools

from irig import BINARY, ELEMENTS, HOURS, MARKER, MINUTES, TICKS, changed, check, frame_at, frame_of, read_frame, record
from refusals import SOUND_STREAMS, TORN_STREAMS
from script import DAY, Script

FRESH = record(0, 0)
# a time with both kinds of bits in every digit but one, and another
TIMES = (2004, 259, 696_987_654_321), (2001, 106, 164_690_000_000)


def writing(s):
    s.fresh()
    s.say("Days, on their first tick and on their last")
    for day in (1, 2, 9, 10, 11, 19, 20, 45, 99, 100, 101, 199, 200, 299, 300, 365, 366):
        for tick in (0, DAY - 1):
            s.time(2004, day, tick)
            s.call("", "W", 104)
    s.say("Every second, minute and hour, with any fraction")
    for n in range(60):
        s.time(2001 + n, 6 * n + 1, (((n * 5 % 24) * 60 + n * 7 % 60) * 60 + n) * TICKS + n * 166_666 % TICKS)
        s.call("", "W", 104)
    s.say("Each bit of the binary seconds alone")
    for bit in range(17):
        s.time(9999, 365, 2 ** bit * TICKS)
        s.call("", "W", 104)
    s.say("Rows of any length")
    for places in (0, 1, 50, 98, 99, 100, 101, 102, 103, 104):
        s.call("", "W", places)
    s.say("Torn cards: 18 before 14")
    for words, put, values in (("day 0", Script.time, (2004, 0, 0)), ("day 366 of 2001", Script.time, (2001, 366, 0)), ("tick of day 864000000000", Script.time, (2004, 1, DAY)),
                               ("level 8", Script.interrupts, (0, 0, 8, 0)), ("a byte behind an empty queue", Script.queue, (0, 0, 1))):
        s.fresh()
        put(s, *values)
        for places in (0, 99, 104):
            s.call(f"{words}, {places} places", "W", places)


def changes(s):
    s.fresh()
    for time in TIMES:
        s.say(f"The frame of day {time[1]}, tick {time[2]}, with each element changed in turn")
        s.time(*time)
        for place, is_ in enumerate(frame_at(*time[1:])):
            for element in sorted({0, 1, 2, 3, 255} - {is_}):
                s.change(place, element)
    s.say("Elements that are 0, 1 or 2 only in their lowest bits; and changes behind the frame")
    for place in (0, 1, 5, 49, 98, 99):
        for element in (4, 6, 18, 128, 129, 130, 254):
            s.change(place, element)
    for place in range(ELEMENTS, 104):
        s.change(place, 2)


# for each refusal of reading, in the page's order, a fault that gives it
FAULTS = {
    14: lambda row: row[:99],
    22: lambda row: changed(row, {49: 0}),
    23: lambda row: changed(row, {58: 1}),
    17: lambda row: changed(row, dict(zip(MINUTES[0], (0, 0, 1, 1)))),
    11: lambda row: changed(row, dict(zip(HOURS[0] + HOURS[1], (0, 0, 1, 0, 0, 1)))),
    24: lambda row: changed(row, {BINARY[0]: 1 - row[BINARY[0]]}),
}


def reading(s):
    s.say("Rows of any length; what stands behind the frame is not looked at")
    frame = frame_of(187, 13, 7, 9)
    for n in (0, 1, 50, 98, 99, 100):
        s.read(f"{n} elements", frame[:n])
    for behind in ([0], [2], [255, 3, 2, 0], frame, frame + [9] * 56):
        s.read(f"{100 + len(behind)} elements", frame + behind)
    s.say("Every set of faults: the first of them in the order 14, 22, 23, 17, 11, 24 is told")
    frame = frame_of(187, 14, 5, 33)
    for count in range(7):
        for numbers in itertools.combinations(FAULTS, count):
            row = frame
            for number in reversed(numbers):        # the row is cut last
                row = FAULTS[number](row)
            assert read_frame(row)[0] == (numbers[0] if numbers else 0), numbers
            s.read("faults " + " ".join(map(str, numbers)), row)
    s.say("Digits above 9")
    for words, field, digit in (("seconds", 3, 0), ("minutes", 2, 0), ("hours", 1, 0), ("days", 0, 0), ("tens of days", 0, 1)):
        for value in (9, 10, 12, 15):
            fields = [(7, 0, 1), (7, 0), (7, 0), (7, 0)]
            fields[field] = tuple(value if k == digit else one for k, one in enumerate(fields[field]))
            hour, minute, second = (units + 10 * tens for units, tens in fields[1:])
            s.read(f"{value} {words}", frame_of(*fields, (hour * 60 + minute) * 60 + second))
    s.say("Fields at the ends of their ranges, and behind them, the binary seconds as the fields have them")
    for fields in ((187, 14, 5, 59), (187, 14, 5, 60), (187, 14, 5, 79), (187, 14, 59, 33), (187, 14, 60, 33), (187, 14, 79, 33), (187, 23, 5, 33), (187, 24, 5, 33), (187, 24, 0, 0),
                   (187, 39, 5, 33), (0, 14, 5, 33), (1, 14, 5, 33), (366, 14, 5, 33), (367, 14, 5, 33), (370, 14, 5, 33), (399, 14, 5, 33), (366, 23, 59, 59), (366, 23, 59, 60), (0, 0, 0, 0), (1, 0, 0, 0)):
        s.read("day {} at {}:{}:{}".format(*fields), frame_of(*fields))
    s.say("Binary seconds that are not those of the digits")
    for fields, right in (((187, 0, 0, 0), 0), ((187, 14, 5, 33), 50_733), ((187, 23, 59, 59), 86_399)):
        for binary in sorted({0, 1, right - 1, right, right + 1, right ^ 256, right ^ 512, right ^ 65_536, 86_399, 86_400, 86_401, 131_071} & set(range(131_072))):
            s.read("{}:{}:{} with {}".format(*fields[1:], binary), frame_of(*fields, binary))


def cuts(s):
    """The stream is told in two rows; where the first finishes the frame, the second is what it left."""
    inside = changed(frame_of(45, 13, 7, 9), {40: MARKER, 50: MARKER, 51: MARKER, 70: 3, 98: MARKER})
    for words, frame, places in (("A frame, cut at every place", frame_of(187, 14, 5, 33), range(103)),
                                 ("A refused one with markers inside, cut at some", inside, (0, 1, 2, 3, 41, 51, 52, 53, 71, 99, 100, 101, 102))):
        s.say(words)
        elements = [MARKER, *frame, MARKER]
        check(elements)
        for place in places:
            left = s.take(f"{place}", FRESH, elements[:place])
            s.take("then", left, elements[min(place, 101):])


def rows(s):
    frame, other = frame_of(187, 14, 5, 33), frame_of(366, 23, 59, 59)
    ends_in_two = changed(other, {98: MARKER})
    s.say("Short rows of streams that search")
    for marked in (0, 1):
        for n in range(4):
            for row in itertools.product((0, MARKER, 3) if n < 3 else (1, MARKER), repeat=n):
                s.take("row", record(0, marked), row)
    for row in ((255, MARKER, 255, MARKER, MARKER, 255), (18, 18), (MARKER, 18), (66, MARKER), (3, 4, 5, 6, 7, 8, 9), (MARKER, 3, MARKER, 0, MARKER, 1, MARKER)):
        s.take("row", FRESH, row)
    s.say("A frame without a marker before it is none")
    s.take("row", FRESH, frame + [0])
    s.say("A call stops behind a frame")
    for row in ([MARKER, *frame, 0, 0, 0], [MARKER, *frame, *other], [0, MARKER, 3, MARKER, MARKER, *frame[1:], *other], [MARKER, *ends_in_two, *frame]):
        left = s.take("row", FRESH, row)
        s.take("then", left, row[-len(other):])
    s.say("A frame that ends in two markers: the last may be the first of two, but not the second")
    for behind in ([0], [MARKER], [MARKER, MARKER], [0, MARKER, MARKER]):
        left = s.take("row", FRESH, [MARKER, *ends_in_two])
        s.take("then", left, behind)
    s.say("A frame that ends in no marker, and in 3")
    for last in (0, 1, 3, 255):
        left = s.take("row", record(99, 0, *frame[:99]), [last, MARKER, MARKER])
        s.take("then", left, [MARKER, MARKER])
    s.say("A frame that ends in a marker and 0, over a cut and whole in its row")
    for stream, row in ((record(99, 0, *frame[:98], MARKER), [0]), (FRESH, [MARKER, *changed(frame, {98: MARKER, 99: 0})])):
        left = s.take("row", stream, row)
        s.take("then", left, [MARKER, 0])
    s.say("Three markers in a row: the frame begins at the second")
    left = s.take("row", FRESH, [MARKER, MARKER, *frame])
    s.take("then", left, other)
    s.say("Elements above 2 are held as they are")
    s.take("row", record(3, 0, MARKER, 3, 255), (255, 254, 9, MARKER, MARKER))
    s.say("Torn records, and the nearest that calls leave")
    for words, stream in TORN_STREAMS + SOUND_STREAMS:
        s.take(words, stream, [MARKER] + frame[:20])


if __name__ == "__main__":
    s = Script()
    for part in (writing, changes, reading, cuts, rows):
        part(s)
    s.write_files("elements")
