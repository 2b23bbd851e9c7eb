"""What the page says of IRIG B frames, written, read, and found in a stream: used by script.py, refusals.py, elements.py and frames.py.

The fields are told by the numbers of their elements, as the page tells them. Nothing of crates/ is read. `check` shows that the frames of a stream do not depend on the cuts.
"""
import random

ELEMENTS, MARKER = 100, 2
TICKS = 10_000_000                      # in a second


def span(first, last):
    return tuple(range(first, last + 1))


MARKERS = (0, *range(9, 100, 10))
# the elements of each decimal digit, units first, and those of the binary seconds; the lowest bit first everywhere
SECONDS = span(1, 4), span(6, 8)
MINUTES = span(10, 13), span(15, 17)
HOURS = span(20, 23), span(25, 26)
DAYS = span(30, 33), span(35, 38), span(40, 41)
BINARY = span(80, 88) + span(90, 97)
SPARE = sorted(set(range(ELEMENTS)) - set(MARKERS) - set(BINARY) - {place for field in (SECONDS, MINUTES, HOURS, DAYS) for digit in field for place in digit})


def seconds_of(hour, minute, second):
    return (hour * 60 + minute) * 60 + second


def put(frame, places, value):
    for bit, place in enumerate(places):
        frame[place] = value >> bit & 1


def frame_of(day, hour, minute, second, binary=None):
    """The frame of these fields; the binary seconds are those of the time unless they are given. A field is a number or its digits, units first, which may be no digits."""
    frame = [0] * ELEMENTS
    for place in MARKERS:
        frame[place] = MARKER
    for places, value in ((SECONDS, second), (MINUTES, minute), (HOURS, hour), (DAYS, day)):
        digits = value if isinstance(value, tuple) else [value // 10 ** k % 10 for k in range(len(places))]
        for digit, of_digit in zip(digits, places):
            put(frame, of_digit, digit)
    put(frame, BINARY, seconds_of(hour, minute, second) if binary is None else binary)
    return frame


def frame_at(day, tick):
    """The frame of a day and a tick of day, without its fraction."""
    seconds = tick // TICKS
    return frame_of(day, seconds // 3600, seconds // 60 % 60, seconds % 60)


def changed(frame, places):
    """The frame with other elements at some places."""
    return [places.get(place, element) for place, element in enumerate(frame)]


def read_frame(row):
    """(number, day, tick) of the first hundred elements of a row."""
    if len(row) < ELEMENTS:
        return 14, 0, 0
    frame = row[:ELEMENTS]
    if any(element > 2 or (element == MARKER) != (place in MARKERS) for place, element in enumerate(frame)):
        return 22, 0, 0
    if any(frame[place] for place in SPARE):
        return 23, 0, 0

    def value(places):
        return sum(frame[place] << bit for bit, place in enumerate(places))

    fields = [[value(digit) for digit in field] for field in (DAYS, HOURS, MINUTES, SECONDS)]
    if any(digit > 9 for field in fields for digit in field):
        return 17, 0, 0
    day, hour, minute, second = (sum(digit * 10 ** k for k, digit in enumerate(field)) for field in fields)
    if not 1 <= day <= 366 or hour > 23 or minute > 59 or second > 59:
        return 11, 0, 0
    if value(BINARY) != seconds_of(hour, minute, second):
        return 24, 0, 0
    return 0, day, seconds_of(hour, minute, second) * TICKS


def frames_in(elements):
    """All frames of a whole stream, each as the number of its element 0 and (number, day, tick)."""
    found, at = [], 0
    while True:
        second = next((k for k in range(at + 1, len(elements)) if elements[k - 1] == elements[k] == MARKER), len(elements))
        if second + ELEMENTS > len(elements):
            return found
        found.append((second, read_frame(elements[second:second + ELEMENTS])))
        at = second + ELEMENTS - 1


def record(held, marked, *places):
    """What is kept of a stream: how many elements are held, whether the last one was a marker while none are, and a hundred places, with zeros behind these."""
    return held, marked, places + (0,) * (ELEMENTS - len(places))


class Stream:
    """A stream that arrives in rows."""

    def __init__(self):
        self.frame, self.marked = [], False

    def record(self):
        return record(len(self.frame), int(self.marked), *self.frame)

    def take(self, row):
        """How many elements were taken, and the frame that they finished, if any."""
        for taken, element in enumerate(row, 1):
            if not self.frame and not (self.marked and element == MARKER):
                self.marked = element == MARKER
                continue
            self.marked = False
            self.frame.append(element)
            if len(self.frame) == ELEMENTS:
                read, self.frame, self.marked = read_frame(self.frame), [], element == MARKER
                return taken, read
        return len(row), None


def stream_of(kept):
    """The stream with this record, or none if no calls leave it. What leaves it, if anything does, is one row: nothing, a marker, or a marker and what is held."""
    held, marked, places = kept
    stream = Stream()
    stream.take([MARKER] * marked if held == 0 else [MARKER, *places[:held]])
    return stream if stream.record() == kept else None


def take_row(kept, row):
    """(number, taken, frame or none, record afterwards)."""
    stream = stream_of(kept)
    if stream is None:
        return 18, 0, None, kept
    taken, read = stream.take(row)
    return 0, taken, read, stream.record()


def found_by(rows):
    """The frames that a stream finds in these rows, as `frames_in` tells them."""
    stream, before, found = Stream(), 0, []
    for row in rows:
        while row:
            taken, read = stream.take(row)
            before, row = before + taken, row[taken:]
            if read:
                found.append((before - ELEMENTS, read))
    return found


def cut(draw, elements, longest):
    """The same elements in rows of any lengths, some of them empty."""
    at = 0
    while at < len(elements):
        n = draw.randint(0, longest)
        yield elements[at:at + n]
        at += n


def check(elements):
    """The frames of these elements do not depend on the cuts."""
    draw, found = random.Random(6), frames_in(elements)
    for longest in (1, 2, 99, 100, 101, 250, 1_000, 65_536):
        assert found == found_by(cut(draw, elements, longest)), longest
    return found
