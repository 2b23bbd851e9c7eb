#!/usr/bin/env python3
"""The cases of the program `registers`, and what the page says of each: writes the program's stdin and stdout.

    python3 tests/registers.py            from the root of the repository

Calls that are done, and the whole card after each: what is written is read back, and what no rule names stays. Beside them, what the jam refuses of large offsets. How a
line is written, and the page's answers, are in script.py.
"""
from listing import beyond
from script import DAY, FORBIDDEN, OFFSETS, SECOND, Script, in_words, write_words

PAGE_TIME = (2004, 45, 472_291_234_567)
LATCHED = write_words(366, DAY - 1)[1:]
STAMPED = write_words(7, 12_345_678)[1:]
PAIRS = [(form, modulation) for form in range(5) for modulation in range(2) if (form, modulation) not in FORBIDDEN]
MODES = (0, 1, 2, 3, 5, 6)
OTHER = (6, 0, 1, 1, 1)         # mode, format, modulation, clock and generator, none as on a fresh card


def everything(s):
    """A card of which nothing is as on a fresh one."""
    s.fresh()
    s.time(*PAGE_TIME)
    s.sources(2, 200, 2000, 3000, 1_234_567)
    s.interrupts(21, 26, 5, 0xC3)
    s.event(5, *STAMPED)
    s.closed(1, 54_321)
    s.latch(1, *LATCHED)
    s.settings(*OTHER, 3)
    s.jam(0)
    s.feed(b"\x01\x02\xff")
    assert s.card.lawful()


def packet(text):
    return b"\x01%s\x17" % text.encode()


class Registers(Script):
    """A script that shows the card after each call."""

    def do(self, *call, words=""):
        values = self.call(words, *call)
        self.show()
        return values


def written(s):
    """Registers that hold bits, read back; and INTSTAT, of which each 1 bit clears."""
    for register, name in ((11, "CONTROL"), (14, "MASK"), (16, "LEVEL"), (17, "VECTOR")):
        s.say(name)
        everything(s)
        for value in (0xFFFF, 0, 1, 2, 4, 8, 0x10, 0x20, 0x80, 0x100, 0x8000, 0xAAAA, 0x5555):
            s.do("w", register, value)
            s.do("r", register)
    s.say("INTSTAT")
    everything(s)
    for pending in (0, 1, 16, 10, 21, 31):
        s.say(f"With {pending} pending")
        for value in (0, 1, 2, 4, 8, 0x10, 0x1F, 0xFFE0, 0xFFFF, 0xAAAA, 0x5555):
            s.interrupts(21, pending, 5, 0xC3)
            s.do("w", 15, value)
            s.do("r", 15)


def line(s):
    s.say("The line: each pending bit beside each bit of the mask, and each level")
    everything(s)
    for mask in range(5):
        for pending in range(5):
            s.interrupts(1 << mask, 1 << pending, 3, 0xA5)
            s.do("l", words=f"pending bit {pending}, mask bit {mask}")
    for level in range(8):
        s.interrupts(31, 31, level, 255 - level)
        s.do("l", words=f"level {level}")


def time_latch(s):
    s.say("TIMEREQ, and the words of the latch, which stay while the time goes on")
    for time in ((1, 1, 0), PAGE_TIME, (2004, 366, DAY - 1), (9999, 100, 36_000_000_000 + 1)):
        everything(s)
        s.time(*time)
        s.do("r", 0)
        for register in range(1, 6):
            s.do("r", register)
        s.time(3, 200, 9 * SECOND)
        s.do("r", 1)
        s.do("w", 0, 0xFFFF)
        for register in range(1, 6):
            s.do("r", register)
        s.do("r", 0)
        s.time(*time)
        s.do("w", 0, 0)


def edges(s):
    s.say("Edges: both kinds, with each CONTROL whose bit 2 is clear, masked or not, and bit 0 pending before or not")
    everything(s)
    s.closed(0, 54_321)
    for control in range(4):
        for falling in range(2):
            for mask, pending in ((0, 26), (31, 26), (0, 27)):
                s.event(1, *STAMPED)
                s.interrupts(mask, pending, 5, 0xC3)
                s.do("w", 11, control)
                s.do("e", falling)
                s.do("r", 15)
            for register in range(6, 11):
                s.do("r", register)
    s.say("A second edge stamps anew, and the latch stays while the time goes on")
    everything(s)
    s.do("w", 11, 1)
    s.do("e", 0)
    s.time(8, 366, 5)
    s.show()
    s.do("e", 0)
    s.do("r", 10)


def acknowledge(s):
    s.say("ACK with neither bit, with bit 0, with bit 7, with both; bits that are not named change nothing")
    for name, bytes_ in (("A 3", b"\x01A3\x17"), ("A 4", b"\x01A4\x17"), ("no packet", b"")):
        for done in (0, 1):
            for value in (0, 1, 0x80, 0x81, 0xFF7E, 0xFF7F, 0xFFFE, 0xFFFF):
                s.fresh()
                s.latch(done, *LATCHED)
                s.feed(bytes_)
                s.do("w", 12, value, words=f"{name}, done {done}, write register 12 with {value:#06x}")
                s.do("r", 12)


def fifo(s):
    s.say("FIFO: the low byte joins the queue")
    s.fresh()
    for value in (0x41, 0, 1, 0x17, 0xFF, 0x100, 0x1FF, 0xFF00, 0xABCD, 0xFFFF):
        s.do("w", 13, value)
    everything(s)
    s.feed(bytes(range(3, 63)))
    s.do("w", 13, 0x2FE)
    s.do("w", 13, 0x2FD, words="one byte more than 64")


def packets(s):
    s.say("Every kind of packet, to a fresh card with the jam on, to one with it off, and to one that has it off, a large offset and other settings")
    texts = ([f"A{mode}" for mode in MODES] + ["G" + offset for offset in
             ("+0000000", "-0000000", "+0000001", "-0000001", "+0009899", "-0009899", "+0009900", "-0009900", "+0009901", "-0009901", "+0010000", "-0010000",
              "+0025000", "-1234567", "+9999999", "-9999999", "+8388608", "-8388607")]
             + ["H" + "ABCNX"[form] + "MD"[modulation] for form, modulation in PAIRS] + ["IE", "II", "KB", "KH"])
    for jam in (1, 0):
        for text in texts:
            s.fresh()
            s.jam(jam)
            s.feed(packet(text))
            s.do("w", 12, 0x80, words=f"{text}, {in_words('j', jam)}")
    everything(s)
    s.queue(0, 0, 0)
    for text in texts:
        s.settings(*OTHER, 3)
        s.feed(packet(text))
        s.do("w", 12, 0x80, words=f"{text}, another card")
    s.say("Bytes behind the first 0x17 are dropped")
    s.fresh()
    s.feed(b"\x01A5\x17\x01A6\x17" + bytes(range(1, 57)))
    s.do("w", 12, 0x80)
    s.do("w", 12, 0x80)


def sources(s):
    s.say("Time, strobe and periodic output: each changes itself alone")
    for call in (("t", 1, 1, 0, 0, 0), ("t", 2004, 366, 23, 59, 59), ("t", 9999, 365, 1, 2, 3), ("s", 0), ("s", 999), ("a", 0, 0, 0, 0), ("a", 23, 59, 59, 999), ("a", 13, 7, 9, 123),
                 ("z",), ("d", 2, 65_535), ("d", 65_535, 2), ("d", 2000, 3000), ("q",)):
        everything(s)
        s.do(*call)
    s.do("z")
    s.do("z")
    s.do("q")
    s.do("d", 2, 2)


def saved(s):
    """What one card saves, another card loads: settings of which one is other than on a fresh card, and some of which several are."""
    s.say("Saved settings: mode, format, modulation, clock, generator, offset")
    fresh = (0, 1, 0, 0, 0)
    alone = ([(mode, *fresh[1:], 0) for mode in MODES] + [(0, form, modulation, 0, 0, 0) for form, modulation in PAIRS]
             + [(0, 1, 0, 1, 0, 0), (0, 1, 0, 0, 1, 0), (0, 1, 0, 1, 1, 0), (6, 4, 0, 1, 1, -9_999_999), (3, 0, 1, 0, 1, -1),
                (0, 1, 1, 0, 0, 25_000), (6, 0, 1, 0, 0, -9_999_999), (5, 4, 0, 0, 0, 9_999_999)]
             + [(*fresh, offset) for offset in (1, -1, 9_900, -9_900, 9_901, -9_901, 25_000, 9_999_999, -9_999_999, 5_592_405, -2_796_202, 8_388_608, -8_388_608)])
    forms = {}
    for mode, form, modulation, clock, generator, offset in alone:
        words = f"{mode} {'ABCNX'[form]} {'MD'[modulation]} {'IE'[clock]} {'BH'[generator]} {offset}"
        s.fresh()
        s.settings(mode, form, modulation, clock, generator, 0)
        if beyond(offset):
            s.do("j", 0)
        s.feed(packet(f"G{offset:+08}"))
        s.do("w", 12, 0x81)
        forms[words] = s.do("p", 5, words=f"save {words}")[1:6]
    s.say("Loaded by another card, which has the jam off, and saved again")
    everything(s)
    for words, form in forms.items():
        s.settings(*OTHER, 3)
        s.do("o", 5, *form, words=words)
        s.do("p", 12)
    s.say("Loaded by a card that has the jam on, and the done bit clear")
    s.jam(1)
    s.latch(0, *LATCHED)
    for words, form in forms.items():
        s.settings(*OTHER, 9)
        s.do("o", 5, *form, words=words)


def switch(s):
    s.say("The jam's switch, from off and from on, with any offset that a card can hold then")
    everything(s)
    for jam in (0, 1):
        for place in (0, 8, 9, 10, 11, 3):
            if jam and beyond(OFFSETS[place]):
                continue
            for on in (1, 0):
                s.settings(*OTHER, place)
                s.jam(jam)
                s.do("j", on, words=f"{OFFSETS[place]} held, {in_words('j', jam)}, then {in_words('j', on)}")
    s.say("After a reset the jam is on, and large offsets need it off from then on")
    everything(s)
    s.do("x")
    s.do("j", 1)

    def send(text):
        s.feed(packet(text))
        s.do("w", 12, 0x80, words=text)

    send("G-0009901")
    s.do("j", 0)
    send("G-0009901")
    s.do("j", 1)
    send("G+0009900")
    s.do("j", 1)
    send("G-0009901")


def resets(s):
    s.say("Reset: a card of which nothing is as on a fresh one, every register of it afterwards, and a reset again")
    everything(s)
    s.show()
    s.do("x")
    for register in range(1, 19):
        if register != 13:
            s.do("r", register)
    s.do("l")
    s.do("x")
    s.say("Reset: what stays of each mode, pair and generator, with the jam off before and then on")
    for mode in MODES:
        everything(s)
        s.settings(mode, 1, 0, 1, 0, 2)
        s.do("x")
    for form, modulation in PAIRS:
        everything(s)
        s.settings(5, form, modulation, 1, 1, 9)
        s.jam(1)
        s.do("x")


def others(s):
    s.say("No other call changes the jam: each done, and most refused too")
    for jam in (1, 0):
        everything(s)
        s.settings(*OTHER, OFFSETS.index(-9_900))
        s.jam(jam)
        for call in (("r", 0), ("r", 12), ("r", 13), ("w", 99, 0), ("w", 0, 0), ("w", 11, 5), ("e", 0), ("r", 18), ("w", 18, 1), ("e", 0), ("r", 15), ("e", 1), ("l",),
                     ("w", 12, 1), ("w", 13, 1), ("b", 2, 1, 1), ("b", 80, 1, 1), ("w", 14, 31), ("w", 15, 1), ("w", 16, 7), ("w", 17, 1), ("t", 0, 1, 0, 0, 0),
                     ("t", 2004, 1, 0, 0, 0), ("s", 1000), ("s", 0), ("a", 24, 0, 0, 0), ("a", 0, 0, 0, 0), ("z",), ("d", 1, 1), ("d", 2000, 2000), ("q",), ("p", 5), ("o", 0),
                     ("n", 0, 1), ("n", 1, 1), ("i", 1, 1), ("w", 12, 0x80)):
            s.call("", *call)
        s.show()


def waits(s):
    s.say("Waits change the time, the count and the pending bits alone")
    for way in "ni":
        everything(s)
        s.do(way, 10, 1_200_000)
        s.do(way, 1, 9_000_000)
        everything(s)
        s.do(way, 10, 0)
        s.do("q")
        s.do("z")
        s.do(way, 10, 4 * SECOND)


if __name__ == "__main__":
    s = Registers()
    s.show()
    for part in (written, line, time_latch, edges, acknowledge, fifo, packets, sources, saved, switch, resets, others, waits):
        part(s)
    s.write_files("registers")
