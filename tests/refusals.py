#!/usr/bin/env python3
"""The cases of the program `refusals`, and what the page says of each: writes the program's stdin and stdout.

    python3 tests/refusals.py            from the root of the repository

Each number, through the call that gives it, beside calls that do not give it; and every way in which a card handed in can break a range, through every call, and in which a
stream's record can be torn.
How a line is written, and the page's answers, are in script.py.
"""
from irig import MARKER, changed, frame_of, record, stream_of
from listing import beyond
from script import DAY, FORBIDDEN, OFFSETS, ZEROS, Card, Script, in_words, read_words, write_packet, write_words

FORTY = b"\x01A" + b"0" * 38
# packets that are refused: what is said, and the bytes
REFUSED = (
    ("no bytes", b""), ("first byte 02", b"\x02A0\x17"), ("40 bytes and then 17", FORTY + b"\x17"), ("41 bytes and then 17", FORTY + b"0\x17"),
    ("41 bytes", FORTY + b"0"), ("40 bytes", FORTY), ("a lone 01", b"\x01"), ("no id", b"\x01\x17"), ("id a", b"\x01a0\x17"), ("A with two digits", b"\x01A44\x17"),
    ("A with none", b"\x01A\x17"), ("A 8", b"\x01A8\x17"), ("H A Q", b"\x01HAQ\x17"), ("A 4", b"\x01A4\x17"), ("A 7", b"\x01A7\x17"), ("H A M", b"\x01HAM\x17"),
    ("H C D", b"\x01HCD\x17"), ("H X D", b"\x01HXD\x17"), ("I X", b"\x01IX\x17"), ("K A", b"\x01KA\x17"), ("G with a letter", b"\x01G+00x0000\x17"),
    ("64 zeros", bytes(64)),
)
# the same with a large offset, so that their numbers come before 25; 10 is of A and H alone, which have none
REFUSED_LARGE = (
    ("first byte 02", b"\x02G+0025000\x17"), ("no 17", b"\x01G+0025000"), ("id g", b"\x01g+0025000\x17"), ("a digit more", b"\x01G+00250000\x17"),
    ("a digit fewer", b"\x01G-999999\x17"), ("41 bytes", b"\x01G+0025000" + b"0" * 31), ("a letter", b"\x01G+00250x0\x17"), ("no sign", b"\x01G09999999\x17"),
)


def registers(s):
    s.fresh()
    s.interrupts(31, 5, 7, 255)
    s.event(3, *ZEROS)
    s.latch(1, 0, 0x4513, 0x0709, 0x1234, 0x5670)
    for register in range(20):
        if register:                # reading TIMEREQ changes the card
            s.call("", "r", register)
    for register in (1, 5, 6, 10, 18, 19, 255):
        s.call("", "w", register, 0xFFFF)
    s.call("line with level 7", "l")
    s.show()
    s.interrupts(31, 5, 0, 255)
    s.call("line with level 0", "l")
    s.interrupts(26, 5, 7, 255)
    s.call("line with none pending that is in the mask", "l")


def packets(s):
    """Through ACK: refused or not, the queue is empty afterwards."""
    for words, bytes_ in REFUSED:
        s.fresh()
        s.latch(1, *ZEROS)
        s.feed(bytes_)
        if len(bytes_) == 64:
            s.call("one byte more than 64", "w", 13, 0)
            s.show()
        s.call(words, "w", 12, 0x80)
        s.show()
    for words, bytes_ in (("A 6", b"\x01A6\x17"), ("H A D and more", b"\x01HAD\x17\x01\x02\x03"), ("G -0000000", b"\x01G-0000000\x17"), ("K H", b"\x01KH\x17"),
                          ("I E", b"\x01IE\x17")):
        s.fresh()
        s.feed(bytes_)
        s.call(words, "w", 12, 0x80)


def packets_alone(s):
    """Read on their own, which asks nothing of a jam."""
    for words, bytes_ in REFUSED:
        s.packet(f"read {words}", bytes_)
    for words, bytes_ in REFUSED_LARGE:
        s.packet(f"read a large offset, {words}", bytes_)
    for text in ("A0 A1 A2 A3 A5 A6 HAD HBM HBD HCM HNM HND HXM IE II KB KH G+0000000 G-0000000 G+0000001 G-0000001 G+0009899 G-0009899 G+0009900 G-0009900"
                 " G+0009901 G-0009901 G+0010000 G-0010000 G+0025000 G-0025000 G+0099000 G-8388608 G+9999999 G-9999999").split():
        s.packet(f"read {text}", b"\x01%s\x17" % text.encode())
    for words, bytes_ in (("A 2 and more", b"\x01A2\x17\x01A4\x17"), ("G +0009901, and then one within", b"\x01G+0009901\x17\x01G+0000000\x17"),
                          ("G -0009900, and then one beyond", b"\x01G-0009900\x17\x01G-0009901\x17"), ("G -0009901 and 53 bytes more", b"\x01G-0009901\x17" + b"9" * 53)):
        s.packet(f"read {words}", bytes_)


def alone(s):
    for mode in (0, 3, 4, 6, 7, 8, 255):
        number = 9 if mode > 7 else 10 if mode in (4, 7) else 0
        s.alone(f"write mode {mode}", "A", (12, mode), write_packet(12, b"A%d" % mode, number))
    s.alone("write mode 3 into 4 places", "A", (4, 3), write_packet(4, b"A3", 0))
    s.alone("write mode 3 into 3 places", "A", (3, 3), write_packet(3, b"A3", 0))
    s.alone("write mode 7 into no places", "A", (0, 7), write_packet(0, b"A7", 10))
    for place, offset in enumerate(OFFSETS):
        number = 9 if abs(offset) > 9_999_999 else 0
        s.alone(f"write offset {offset}", "G", (11, place), write_packet(11, b"G%+08d" % offset, number))
    s.alone("write offset -9999999 into 10 places", "G", (10, 3), write_packet(10, b"G-9999999", 0))
    s.alone("write offset 10000000 into 10 places", "G", (10, 4), write_packet(10, b"G+10000000", 9))
    for f, form in enumerate("ABCNX"):
        for m, modulation in enumerate("MD"):
            number = 10 if (f, m) in FORBIDDEN else 0
            s.alone(f"write H {form} {modulation}", "H", (12, f, m), write_packet(12, f"H{form}{modulation}".encode(), number))
    s.alone("write H B M into 4 places", "H", (4, 1, 0), write_packet(4, b"HBM", 0))
    s.alone("write I E", "J", (12,), write_packet(12, b"IE", 0))
    s.alone("write K H into 3 places", "K", (3,), write_packet(3, b"KH", 0))
    for day, tick in ((0, 0), (1, 0), (45, 472_291_234_567), (366, DAY - 1), (367, 0), (1, DAY), (0, DAY)):
        s.alone(f"words of day {day}, tick {tick}", "f", (day, tick), write_words(day, tick))
    for words in ((0, 0x4513, 0x0709, 0x1234, 0x5670), (0, 0x45A3, 0, 0, 0), (0, 0x4524, 0, 0, 0), (0x10, 0x0100, 0, 0, 0), (0, 0x0100, 0, 0, 1), (0, 0x0124, 0, 0, 0xA000),
                  (3, 0x6700, 0, 0, 0), (3, 0x6623, 0x5959, 0x9999, 0x9990), (0, 0x0100, 0x6000, 0, 0), (0, 0x0100, 0x0060, 0, 0), (4, 0x0000, 0, 0, 0), ZEROS):
        s.alone("read " + " ".join(f"{w:04X}" for w in words), "g", (0, *words), read_words(words))
    for wanted, values in ((399, (21, 0, 0, 0, 0)), (400, (0, 2, 2, 400, 0)), (429_483_622_500, (0, 65_535, 65_535, 429_483_622_500, 0)), (429_483_622_501, (21, 0, 0, 0, 0))):
        s.alone(f"nearest pair to {wanted} ns", "c", (wanted,), values)


def frames(s):
    s.fresh()
    for places in (0, 99, 100, 101, 104):
        s.call("", "W", places)
    s.time(2004, 366, DAY - 1)
    s.call("", "W", 100)
    noon = frame_of(1, 12, 0, 0)
    for words, row in (("of 99 elements", noon[:99]), ("of 100", noon), ("of 101", noon + [3]),
                       ("without its first marker", changed(noon, {0: 0})), ("without its last", changed(noon, {99: 1})), ("with a marker at 1", changed(noon, {1: MARKER})),
                       ("with a marker at 98", changed(noon, {98: MARKER})), ("with 3 at 9", changed(noon, {9: 3})), ("with 255 at 50", changed(noon, {50: 255})),
                       ("with 1 at 5", changed(noon, {5: 1})), ("with 1 at 98", changed(noon, {98: 1})), ("with 1 at 97, no spare one", changed(noon, {97: 1})),
                       ("of second 10 in one digit", frame_of(1, 12, 0, (10, 0), 43_210)), ("of second 9", frame_of(1, 12, 0, 9)), ("of a day with 15 tens", frame_of((0, 15, 0), 12, 0, 0)),
                       ("of second 59", frame_of(1, 12, 0, 59)), ("of second 60", frame_of(1, 12, 0, 60)), ("of minute 59", frame_of(1, 12, 59, 0)), ("of minute 60", frame_of(1, 12, 60, 0)),
                       ("of hour 23", frame_of(1, 23, 0, 0)), ("of hour 24", frame_of(1, 24, 0, 0)), ("of day 0", frame_of(0, 12, 0, 0)), ("of day 366", frame_of(366, 12, 0, 0)),
                       ("of day 367", frame_of(367, 12, 0, 0)), ("with 43199 binary seconds", frame_of(1, 12, 0, 0, 43_199)), ("with 43201", frame_of(1, 12, 0, 0, 43_201)),
                       ("of midnight with 86400", frame_of(1, 0, 0, 0, 86_400)), ("of midnight", frame_of(1, 0, 0, 0)), ("of the last second", frame_of(366, 23, 59, 59))):
        s.read(f"read a frame {words}", row)


def told(s, *call):
    """A call, and the card behind it if it is refused."""
    if s.call(*call)[0]:
        s.show()


def refused(s, *call):
    """The same of a fresh card."""
    s.fresh()
    told(s, *call)


def setting(s):
    for fields in ((2001, 366, 0, 0, 0), (2001, 365, 0, 0, 0), (2004, 366, 23, 59, 59), (2000, 366, 0, 0, 0), (2100, 366, 0, 0, 0), (2100, 365, 23, 59, 59),
                   (0, 1, 0, 0, 0), (10_000, 1, 0, 0, 0), (2004, 0, 0, 0, 0), (2004, 367, 0, 0, 0),
                   (2004, 1, 24, 0, 0), (2004, 1, 0, 60, 0), (2004, 1, 0, 0, 60), (9999, 365, 23, 59, 59)):
        refused(s, "", "t", *fields)
    for pair in ((0, 2), (1, 2), (2, 1), (2, 65_536), (65_536, 2), (2, 65_535), (65_535, 65_535)):
        refused(s, "", "d", *pair)
    for ms in (0, 999, 1000, 65_535):
        refused(s, "", "s", ms)
    for fields in ((23, 59, 59, 999), (24, 0, 0, 0), (0, 60, 0, 0), (0, 0, 60, 0), (0, 0, 0, 1000)):
        refused(s, "", "a", *fields)


def waiting(s):
    s.fresh()
    s.sources(0, 0, 2, 2, 1)
    s.call("wait a day and a tick", "n", 2, DAY + 1)
    s.call("the same with no places", "n", 0, DAY + 1)
    s.call("wait 0 with no places", "n", 0, 0)
    s.show()
    s.call("wait 0", "n", 2, 0)
    s.call("wait a day", "n", 2, DAY)
    s.fresh()
    s.time(9999, 365, DAY - 5)
    s.call("wait past year 9999", "n", 2, 5)
    s.call("the same with no places", "n", 0, 5)
    s.show()
    s.call("wait to its last tick", "n", 2, 4)


def saving(s):
    s.fresh()
    for places in range(7):
        s.call("", "p", places)
    for words, form in (("what was saved", (0x06, 0, 0x18, 0x6A, 0)), ("4 bytes", (4, 0, 0, 0)), ("6 bytes", (4, 0, 0, 0, 0, 0)), ("no bytes", ()), ("a spare bit", (4, 0, 0, 0, 1)),
                        ("a higher spare bit", (4, 0, 0, 0, 0x20)), ("minus zero", (4, 0x40, 0, 0, 0)), ("mode 4", (0x84, 0, 0, 0, 0)), ("mode 7", (0xE4, 0, 0, 0, 0)),
                        ("format 5", (0x14, 0, 0, 0, 0)), ("A with M", (0, 0, 0, 0, 0)), ("C with D", (0x0A, 0, 0, 0, 0)), ("X with D", (0x12, 0, 0, 0, 0)),
                        ("offset 10000000", (4, 0x26, 0x25, 0xA0, 0)), ("offset 9999999", (4, 0x26, 0x25, 0x9F, 0xC0)), ("offset -9999999", (4, 0x66, 0x25, 0x9F, 0xC0))):
        refused(s, "load " + words, "o", len(form), *form)


# around the border, and far beyond it
BORDER = (9_900, -9_900, 9_901, -9_901, 25_000, -9_999_999)


def held(s, jam, offset=-9_900):
    """A card with settings of its own, and with the done bit."""
    s.fresh()
    s.latch(1, *ZEROS)
    s.settings(5, 3, 1, 1, 1, OFFSETS.index(offset))
    if not jam:                     # it is on already
        s.jam(0)


def form_of(offset):
    """The five bytes of a fresh card's settings, but for the offset."""
    card = Card()
    card.offset = offset
    return card.saved()


def jam(s):
    """25 through ACK, from a load and from the switch, each beside the nearest that it does not refuse."""
    for on in (1, 0):
        for offset in BORDER:
            words = f"{in_words('j', on)}, {offset}"
            held(s, on)
            s.feed(b"\x01G%+08d\x17\x01G%+08d\x17" % (offset, 0 if beyond(offset) else 25_000))      # the second is dropped
            told(s, f"{words} by a packet", "w", 12, 0x80)
            held(s, on)
            told(s, f"{words} by a load", "o", 5, *form_of(offset))
        for words, bytes_ in REFUSED_LARGE:
            held(s, on)
            s.feed(bytes_)
            told(s, f"{in_words('j', on)}, a large offset, {words}", "w", 12, 0x80)
    large = form_of(25_000)
    for words, form in (("a spare bit", (*large[:4], large[4] | 1)), ("mode 4", (large[0] | 0x80, *large[1:])), ("A with M", (0, *large[1:])),
                        ("4 bytes", large[:4]), ("6 bytes", (*large, 0)), ("10000000", form_of(10_000_000)), ("-10000000", form_of(-10_000_000))):
        held(s, 1)
        s.queue(1, 0, 9)
        told(s, f"load a large offset, {words}", "o", len(form), *form)
    for words, form in (("10000000", form_of(10_000_000)), ("minus zero", (4, 0x40, 0, 0, 0))):
        held(s, 0)
        told(s, f"jam off, load {words}", "o", 5, *form)
    for value in (0, 1, 0x81, 0xFFFE):
        held(s, 1)
        s.feed(b"\x01G-0009901\x17")
        s.call(f"-9901 in the queue, write register 12 with {value:#06x}", "w", 12, value)
        s.show()
    held(s, 0)
    s.feed(b"\x01G-0009901\x17")
    s.call("-9901 in the queue, jam on", "j", 1)
    s.call("and then taken", "w", 12, 0x80)
    s.show()
    s.fresh()
    s.feed(b"\x01G-0009901\x17")
    s.settings(0, 1, 0, 0, 0, OFFSETS.index(9_901))
    s.call("9901 held with the jam on, -9901 taken", "w", 12, 0x80)
    s.call("9901 held with the jam on, 0 loaded", "o", 5, *form_of(0))
    s.show()
    for offset in (0, *BORDER):
        for on in (1, 0):
            held(s, 0, offset)
            told(s, f"{offset} held, {in_words('j', on)}", "j", on)


def jam_off(s, *six):
    """Settings of a card whose jam is off."""
    s.settings(*six)
    s.jam(0)


def closed_zero(s, control):
    """A closed latch that is all zero, and a CONTROL beside it."""
    s.event(control, *ZEROS)
    s.closed(1, 0)


# every way to break a range, each alone (an offset out of its range with the jam on breaks two, so it comes with the jam off too): what is said, what is set, and how
TORN = (
    ("year 0", Script.time, (0, 1, 0)),
    ("year 10000", Script.time, (10_000, 1, 0)),
    ("day 0", Script.time, (2004, 0, 0)),
    ("day 366 of 2001", Script.time, (2001, 366, 0)),
    ("day 366 of 2100", Script.time, (2100, 366, 0)),
    ("day 367 of 2004", Script.time, (2004, 367, 0)),
    ("tick of day 864000000000", Script.time, (2004, 1, DAY)),
    ("strobe daily at 86400000 ms", Script.sources, (1, 86_400_000, 2, 2, 0)),
    ("strobe each second at 1000 ms", Script.sources, (2, 1000, 2, 2, 0)),
    ("n1 0", Script.sources, (0, 0, 0, 2, 0)),
    ("n1 1", Script.sources, (0, 0, 1, 2, 0)),
    ("n2 0", Script.sources, (0, 0, 2, 0, 0)),
    ("n2 1", Script.sources, (0, 0, 2, 1, 0)),
    ("count 4 of 2 and 2", Script.sources, (0, 0, 2, 2, 4)),
    ("count 4294836225 of 65535 and 65535", Script.sources, (0, 0, 65_535, 65_535, 65_535 * 65_535)),
    ("mask 32", Script.interrupts, (32, 0, 0, 0)),
    ("pending 32", Script.interrupts, (0, 32, 0, 0)),
    ("level 8", Script.interrupts, (0, 0, 8, 0)),
    ("CONTROL 8", Script.event, (8, *ZEROS)),
    ("a closed latch, CONTROL 3", closed_zero, (3,)),
    ("event latch with digit A", Script.event, (0, 0, 0x0100, 0, 0, 0xA000)),
    ("event latch with a spare digit", Script.event, (0, 0, 0x0100, 0, 0, 1)),
    ("event latch of day 0", Script.event, (0, 0, 0x0001, 0, 0, 0)),
    ("event latch of day 367", Script.event, (0, 3, 0x6700, 0, 0, 0)),
    ("event latch of hour 24", Script.event, (0, 0, 0x0124, 0, 0, 0)),
    ("time latch with a spare digit", Script.latch, (0, 0x0010, 0x0100, 0, 0, 0)),
    ("time latch of minute 60", Script.latch, (0, 0, 0x0100, 0x6000, 0, 0)),
    ("time latch of second 60", Script.latch, (0, 0, 0x0100, 0x0060, 0, 0)),
    ("time latch of day 0, last word set", Script.latch, (0, 0, 0, 0, 0, 0x0010)),
    ("mode 4", Script.settings, (4, 1, 0, 0, 0, 0)),
    ("mode 7", Script.settings, (7, 1, 0, 0, 0, 0)),
    ("mode 8", Script.settings, (8, 1, 0, 0, 0, 0)),
    ("mode 255", Script.settings, (255, 1, 0, 0, 0, 0)),
    ("A with M", Script.settings, (0, 0, 0, 0, 0, 0)),
    ("C with D", Script.settings, (0, 2, 1, 0, 0, 0)),
    ("X with D", Script.settings, (0, 4, 1, 0, 0, 0)),
    ("offset 10000000", Script.settings, (0, 1, 0, 0, 0, 4)),
    ("offset -10000000", Script.settings, (0, 1, 0, 0, 0, 5)),
    ("offset 2147483647", Script.settings, (0, 1, 0, 0, 0, 6)),
    ("offset -2000000000", Script.settings, (0, 1, 0, 0, 0, 7)),
    ("offset 10000000, jam off", jam_off, (0, 1, 0, 0, 0, 4)),
    ("offset -10000000, jam off", jam_off, (0, 1, 0, 0, 0, 5)),
    ("offset 2147483647, jam off", jam_off, (0, 1, 0, 0, 0, 6)),
    ("offset -2000000000, jam off", jam_off, (0, 1, 0, 0, 0, 7)),
    ("offset 25000, jam on", Script.settings, (0, 1, 0, 0, 0, 1)),
    ("offset 9901, jam on", Script.settings, (0, 1, 0, 0, 0, 10)),
    ("offset -9901, jam on", Script.settings, (0, 1, 0, 0, 0, 11)),
    ("offset 9999999, jam on", Script.settings, (0, 1, 0, 0, 0, 2)),
    ("offset -9999999, jam on", Script.settings, (0, 1, 0, 0, 0, 3)),
    ("65 bytes in the queue", Script.queue, (65, 0, 0)),
    ("a byte behind an empty queue", Script.queue, (0, 0, 1)),
    ("a byte in the last place, behind 63", Script.queue, (63, 63, 1)),
)
# the nearest cards that break none
SOUND = (
    ("day 366 of 2004", Script.time, (2004, 366, DAY - 1)),
    ("the last tick", Script.time, (9999, 365, DAY - 1)),
    ("strobe daily at 86399999 ms", Script.sources, (1, 86_399_999, 2, 2, 3)),
    ("count 4294836224 of 65535 and 65535", Script.sources, (2, 999, 65_535, 65_535, 65_535 * 65_535 - 1)),
    ("all bits", Script.interrupts, (31, 31, 7, 255)),
    ("CONTROL 7, event latch of day 366", Script.event, (7, 3, 0x6623, 0x5959, 0x9999, 0x9990)),
    ("a closed latch, CONTROL 4", closed_zero, (4,)),
    ("65535 missed, CONTROL 0", Script.closed, (0, 65_535)),
    ("time latch of day 1", Script.latch, (1, 0, 0x0100, 0, 0, 0)),
    ("mode 6, A with D, offset -9999999, jam off", jam_off, (6, 0, 1, 0, 0, 3)),
    ("offset 9901, jam off", jam_off, (0, 1, 0, 0, 0, 10)),
    ("offset -9901, jam off", jam_off, (0, 1, 0, 0, 0, 11)),
    ("offset 9900, jam on", Script.settings, (0, 1, 0, 0, 0, 8)),
    ("offset -9900, jam on", Script.settings, (0, 1, 0, 0, 0, 9)),
    ("jam off", Script.jam, (0,)),
    ("64 bytes in the queue", Script.queue, (64, 63, 1)),
)


# every call, most with arguments that a lawful card would refuse by another number
EVERY = (("r", 99), ("w", 99, 0), ("w", 12, 0x81), ("w", 13, 1), ("b", 0, 1, 1), ("b", 65, 1, 1), ("e", 0), ("l",), ("j", 1), ("j", 0), ("x",), ("p", 4),
         ("o", 4, 0, 0, 0, 0), ("o", 5, *form_of(25_000)), ("t", 0, 0, 0, 0, 0), ("d", 1, 1), ("q",), ("s", 1000), ("a", 24, 0, 0, 0), ("z",), ("n", 0, DAY + 1),
         ("i", 0, DAY + 1), ("W", 99))


def refused_18(s, words, calls=EVERY):
    """A torn card through every call; nothing of it changes."""
    assert not s.card.lawful()
    s.say(words)
    s.show()
    for call in calls:
        assert s.call("", *call)[0] == 18
    s.show()


def cards(s):
    for words, put, values in TORN:
        s.fresh()
        put(s, *values)
        refused_18(s, words)
    for words, put, values in SOUND:
        s.fresh()
        put(s, *values)
        assert s.card.lawful()
        s.call(f"{words}, taken", "r", 11)


# every way to tear a stream's record: what is said, and the record
TORN_STREAMS = (
    ("an element, none held", record(0, 0, 1)),
    ("a marker, none held", record(0, 0, MARKER)),
    ("an element in the last place, none held", record(0, 0, *[0] * 99, 1)),
    ("an element behind a marker, none held", record(0, 1, 0, 1)),
    ("one held that is 0", record(1, 0, 0)),
    ("one held that is 3", record(1, 0, 3)),
    ("99 held, the first 1", record(99, 0, 1, *[0] * 98)),
    ("one held, and marked", record(1, 1, MARKER)),
    ("99 held, and marked", record(99, 1, MARKER)),
    ("100 held", record(100, 0, MARKER)),
    ("101 held", record(101, 0, MARKER)),
    ("9999999999999 held", record(9_999_999_999_999, 0, MARKER)),
    ("none held but for bit 32", record(2 ** 32, 0)),
    ("one held but for bit 32", record(2 ** 32 + 1, 0, MARKER)),
    ("an element behind one held", record(1, 0, MARKER, 1)),
    ("an element in the last place, behind 99 held", record(99, 0, MARKER, *[0] * 98, 255)),
    ("four elements of 64 behind one held", record(1, 0, MARKER, 64, 64, 64, 64)),
)
# the nearest records that calls leave
SOUND_STREAMS = (
    ("none held", record(0, 0)),
    ("none held, and marked", record(0, 1)),
    ("one held", record(1, 0, MARKER)),
    ("99 held", record(99, 0, MARKER, *[255] * 98)),
)


def streams(s):
    """A torn record is refused whatever the row, and comes back as it was."""
    for words, torn in TORN_STREAMS:
        assert stream_of(torn) is None
        s.lawful(f"{words}, lawful", torn)
        for row in ((), (MARKER, MARKER, 0)):
            s.take(f"{words}, takes {len(row)}", torn, row)
    for words, sound in SOUND_STREAMS:
        s.lawful(f"{words}, lawful", sound)
        s.take(f"{words}, takes 3", sound, (MARKER, MARKER, 0))


if __name__ == "__main__":
    s = Script()
    for part in (registers, packets, packets_alone, alone, frames, setting, waiting, saving, jam, cards, streams):
        part(s)
    s.write_files("refusals")
