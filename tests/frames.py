#!/usr/bin/env python3
"""A long stream of elements for the program `frames`, and the frames that the page finds in it: writes the program's stdin and stdout.

    python3 tests/frames.py           from the root of the repository

stdin is the elements, a byte for each. stdout has a line for each frame: the number of its element 0, counted from 0, its number, and, if that is 0, its day and its tick of day.
The stream has frames back to back and with elements between them, each refusal, frames that end in two markers, markers in a row and inside a frame, noise, and a frame that is
cut off at the end. It is longer than one reading takes, and each reading ends within a good frame. The frames are worked out by irig.py.
"""
import random

from irig import ELEMENTS, MARKER, MARKERS, SPARE, changed, check, frame_at, frame_of, read_frame

READING = 65_536
SECONDS = 86_400
GOOD = frame_of(123, 4, 56, 7)
ENDS_IN_TWO = changed(frame_of(300, 23, 59, 58), {98: MARKER})
# each with one fault: 22, 23, 17, 11, 24
REFUSED = (
    *(changed(GOOD, {place: other}) for place in MARKERS for other in (0, 1, 3, 130, 255)),
    *(changed(GOOD, {place: (2, 3, 255)[place % 3]}) for place in range(1, ELEMENTS) if place not in MARKERS),
    *(changed(GOOD, {place: 1}) for place in SPARE),
    *(frame_of(*fields) for fields in ((123, 4, 56, (10, 0), 0), (123, 4, (15, 5), 7, 0), (123, (12, 1), 56, 7, 0), ((11, 0, 0), 4, 56, 7), ((0, 10, 0), 4, 56, 7), ((15, 15, 3), 4, 56, 7))),
    *(frame_of(*fields) for fields in ((0, 4, 56, 7), (367, 4, 56, 7), (399, 4, 56, 7), (123, 24, 56, 7), (123, 39, 56, 7), (123, 4, 60, 7), (123, 4, 79, 7), (123, 4, 56, 60), (123, 4, 56, 79))),
    *(frame_of(123, 4, 56, 7, binary) for binary in (0, 17_766, 17_768, 17_767 + SECONDS, 131_071)), frame_of(123, 0, 0, 0, SECONDS), frame_of(123, 23, 59, 59, SECONDS),
)


def in_a_row(day, second, count):
    """The frames of seconds that follow each other, up to the last of the day and on to day 1 behind day 366."""
    for at in range(second, second + count):
        yield frame_at((day - 1 + at // SECONDS) % 366 + 1, at % SECONDS * 10_000_000)


def any_frame(draw):
    return frame_at(draw.randint(1, 366), draw.randrange(SECONDS * 10_000_000))


def parts(draw):
    """What the stream is put together from, in this order."""
    yield [0, 1, MARKER, 0, 3, MARKER, 255, MARKER]
    yield from in_a_row(45, 47_229, 100)
    yield from in_a_row(365, SECONDS - 20, 40)
    yield from in_a_row(366, SECONDS - 20, 40)
    for day in range(1, 367):
        yield frame_at(day, draw.randrange(SECONDS * 10_000_000))
    for stray in (0, 1, MARKER, 3, 130, 255):
        for _ in range(8):
            yield any_frame(draw)
            yield [stray]
    for _ in range(20):
        yield any_frame(draw)
        yield [draw.randrange(256) for _ in range(draw.randint(0, 120))]
    yield from ([draw.randrange(256) for _ in range(10_000)], [draw.randrange(4) for _ in range(5_000)])
    for bad in REFUSED:
        yield bad
        yield any_frame(draw)
    for between in ([], [0], [MARKER], [0, MARKER], [MARKER, 0], [MARKER, MARKER], [MARKER, MARKER, 0], [0, MARKER, MARKER, MARKER, 0], [0] * 99, [MARKER] * 99, [0, *[MARKER] * 102, 0]):
        yield ENDS_IN_TWO
        yield between
        yield from in_a_row(301, 0, 3)
    for place in range(1, 99):
        yield changed(GOOD, {place: MARKER, place + 1: MARKER})
    yield from in_a_row(7, 3_599, 10)
    for _ in range(40):
        yield [draw.choice((0, 1, MARKER)) for _ in range(draw.randint(1, 400))]
        yield any_frame(draw)
    yield from in_a_row(200, 0, 5)


def stream():
    """The parts, with good frames wherever a reading would end in anything else."""
    draw, elements = random.Random(6), []
    for part in parts(draw):
        left = READING - len(elements) % READING
        if left < len(part) + 5 * ELEMENTS:
            for _ in range(left // ELEMENTS + 2):
                elements += any_frame(draw)
        elements += part
    return elements + GOOD[:99]


def line(first, read):
    number, day, tick = read
    return f"{first} {number}\n" if number else f"{first} 0 {day} {tick}\n"


if __name__ == "__main__":
    elements = stream()
    found = check(elements)
    for end in range(READING, len(elements), READING):
        assert any(first < end <= first + 99 and not read[0] for first, read in found), end
    assert {read[0] for _, read in found} == {0, 22, 23, 17, 11, 24} and read_frame(ENDS_IN_TWO)[0] == 22
    assert len(elements) > 2 * READING
    with open("crates/frames/stdin", "wb") as out:
        out.write(bytes(elements))
    with open("crates/frames/stdout", "w") as out:
        out.writelines(line(*one) for one in found)
