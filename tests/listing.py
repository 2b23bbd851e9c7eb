#!/usr/bin/env python3
"""The bench's listing of standard input, worked out from the page alone.

Nothing of crates/ is read. The program must write the same bytes:

    python3 tests/listing.py < examples/packets.bin
"""
import sys

START, END = 0x01, 0x17
LONGEST = 41
LARGEST_JAMMED = 9_900      # ticks either way: a larger offset needs the jam off

DIGITS = b"0123456789"
PAIRS_WITHOUT_MEANING = (b"AM", b"CD", b"XD")

# id -> the kinds of its data bytes, in order
KINDS = {
    b"A": (b"01234567",),
    b"G": (b"+-",) + (DIGITS,) * 7,
    b"H": (b"ABCNX", b"MD"),
    b"I": (b"EI",),
    b"K": (b"BH",),
}


def pieces(data):
    """Cut behind each 0x17, or after 41 bytes without one; the last rest too, if not empty."""
    piece = bytearray()
    for byte in data:
        piece.append(byte)
        if byte == END or len(piece) == LONGEST:
            yield bytes(piece)
            piece.clear()
    if piece:
        yield bytes(piece)


def beyond(offset):
    """Whether this offset needs the jam off."""
    return abs(offset) > LARGEST_JAMMED


def refusal(piece):
    """The number that refuses these bytes as a packet on its own, by the table, from 4 to 10; else 0. It asks nothing of a jam."""
    if piece[:1] != bytes([START]):
        return 4
    end = piece[:LONGEST].find(END)
    if end < 0:
        return 5 if len(piece) >= LONGEST else 6
    ident, data = piece[1:2], piece[2:end]
    if end == 1 or ident not in KINDS:
        return 7
    kinds = KINDS[ident]
    if len(data) != len(kinds):
        return 8
    if not all(byte in kind for byte, kind in zip(data, kinds)):
        return 9
    if ident == b"A" and data in (b"4", b"7"):
        return 10
    if ident == b"H" and data in PAIRS_WITHOUT_MEANING:
        return 10
    return 0


def needs_jam_off(piece):
    """Whether these bytes are an accepted packet that needs the jam off: only a G can be."""
    return refusal(piece) == 0 and piece[1:2] == b"G" and beyond(int(piece[2:piece.index(END)]))


def answer(piece, jam=1):
    """The number that a card gives to these bytes in its queue; a fresh card has the jam on. All that refuse a packet on its own come before 25."""
    return 25 if jam and needs_jam_off(piece) else refusal(piece)


def listing(data):
    lines = [b"PKT ANS\n"]
    for number, piece in enumerate(pieces(data), 1):
        lines.append(b"%d %d\n" % (number, answer(piece)))
    return b"".join(lines)


if __name__ == "__main__":
    sys.stdout.buffer.write(listing(sys.stdin.buffer.read()))
