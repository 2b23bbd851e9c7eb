#!/usr/bin/env python3
"""The cases of the program `blocks`, and what the page says of each: writes the program's stdin and stdout.

    python3 tests/blocks.py            from the root of the repository

Blocks of every kind of length into a queue that holds any number of bytes; rows cut anywhere into two calls; blocks, single bytes and ACK in turn; and the whole card
after each. How a line is written, and the page's answers, are in script.py: a block is written there byte by byte, and it is checked here that as many bytes were taken
as had room.
"""
import random

from registers import Registers, everything


def block(s, count, first, step, words=""):
    room = 64 - s.card.fill
    number, taken = s.do("b", count, first, step, words=words)
    assert (number, taken) == (3 if count > room else 0, min(count, room))


def lengths(s):
    """Every fill, with as many bytes as there are free places or one more; some fills with other lengths too."""
    s.fresh()
    for fill in range(65):
        free = 64 - fill
        others = (0, 1, free // 2, free, free + 1, min(free + 16, 80)) if fill in (0, 33, 61, 62, 63, 64) else ()
        for count in sorted({free + fill % 2, *others}):
            s.queue(fill, max(fill - 1, 0), 200 if fill else 0)
            block(s, count, 3, 7, words=f"{fill} held, {count} given")


def cuts(s):
    """A row of 20 in two calls, with room for all of it and for 13 of it."""
    for fill in (40, 51):
        for first in range(0, 21, 1 if fill == 51 else 4):
            s.fresh()
            s.queue(fill, 0, 9)
            s.say(f"{fill} held, cut behind {first}")
            block(s, first, 100, 1)
            block(s, 20 - first, 100 + first, 1)


def ends(s):
    """No byte has a meaning: 0x17 ends no packet, 0x80 is not ACK."""
    for first, step in ((0x17, 0), (0x80, 0), (0, 0), (0xFF, 0), (0x16, 1), (1, 0x16)):
        s.fresh()
        s.latch(1, 0, 0x4513, 0x0709, 0x1234, 0x5670)
        block(s, 4, first, step)
        s.do("w", 12, 0x80)


def in_turn(s):
    draw = random.Random(4)
    everything(s)
    for _ in range(80):
        kind = draw.randrange(12)
        if kind < 7:
            block(s, draw.choice((0, 1, 2, 5, 11, 30, 64, 80)), draw.randrange(256), draw.randrange(256))
        elif kind < 10:
            s.do("w", 13, draw.randrange(65_536))
        elif kind == 10:
            s.do("w", 12, draw.choice((0x80, 0x81, 1)))
        else:
            s.do("x")


if __name__ == "__main__":
    s = Registers()
    for part in (lengths, cuts, ends, in_turn):
        part(s)
    s.write_files("blocks")
