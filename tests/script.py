"""How a script is written, and what the page says of each of its lines: used by refusals.py, registers.py, blocks.py, waits.py, trips.py, times.py, periods.py and
elements.py.

A line is what is to be said, a bar, and a call: a letter and decimal numbers. A line with no call is only said. Some calls only change the card, and say nothing:

    N a fresh card                        T YEAR DAY TICK                      S KIND MS N1 N2 COUNT (kind 0 off, 1 daily, 2 each second)
    I MASK PENDING LEVEL VECTOR           E CONTROL and five words             L DONE and five words, of the time latch
    Q FILL PLACE BYTE                     F COUNT and bytes, written to FIFO   M MODE FORMAT MODULATION CLOCK GENERATOR OFFSET
    O JAM                                 C CLOSED MISSED, the count

Behind the others stand their number and what else they give back:

    r REGISTER   w REGISTER VALUE   b COUNT FIRST STEP (a block)   e FALLING   l the line   x reset   p PLACES (save)   o COUNT and bytes (load)
    t YEAR DAY HOUR MINUTE SECOND   d N1 N2   q periodic off   s MS   a HOUR MINUTE SECOND MS   z strobe off   n PLACES TICKS (wait)
    i PLACES TICKS (wait in place)   f DAY TICK   g 0 and five words   A PLACES MODE   G PLACES OFFSET   H PLACES FORMAT MODULATION
    J PLACES (I with E)   K PLACES (K with H)   c WANTED (the nearest pair)   u HIGH LOW (the same, to HIGH x 4294967296 + LOW)   v what stands in the card
    W PLACES (the card's frame)   m PLACE ELEMENT (the card's frame with another element, read)   R ROW (a frame read)   Y HELD MARKED PLACES ROW (a stream takes a row)
    y HELD MARKED PLACES (whether the stream is lawful)   j ON (the jam's switch)   P COUNT and bytes (a packet read on its own, of at most 64)
    k TIMES FALLING (so many edges, one after another)

Formats are A, B, C, N, X as 0 to 4; modulation D, clock external and generator H are 1; an offset is its place in OFFSETS; JAM and ON are 1 for on, else off; CLOSED is
1 for a closed event latch, else it is open. E leaves closed or open, and the count, as they were. The bytes of a block are FIRST and each one STEP more than the one
before, from 0 on again behind 255; there are at most 80. There are at most 70,000 edges on a line; behind them stands the number of the last, 0 if there is none. Lent
places, ten for a wait, twelve for bytes and 104 for a frame, hold 7 before. The elements of a row, and the places of a stream's record, stand without spaces, each as
the character whose code is 48 more, so that 0 to 9 are their digits and / is 255; a record has zeros behind the places that a line has. Behind the number that a row
gives stand how many elements were taken; 0, or 1 and the frame's number, day and tick; and the record afterwards. Behind the number of a packet that was read stand its
id; 1 if its value is below 0; the size of the value, of a letter its byte; for H the modulation's byte, else 0; and 1 if it needs the jam off. All five are 0 if it was
refused.

A card is shown as year, day and tick; strobe, 0 or its kind and milliseconds; periodic, 0 or n1, n2 and count; mask, pending, level, vector; CONTROL; 1 if the event
latch is closed; the missed edges; the event latch; the time latch; mode, format, modulation, clock, generator, minus, size of the offset; jam; done; the queue's fill;
and each of its 64 bytes that is not 0, as place:byte.

The answers are worked out here from the page; nothing of crates/ is read. What a wait lists is found by going through its window tick by tick. Days are counted by
Python's own calendar.
"""
import calendar
import functools
from datetime import date, timedelta

from irig import ELEMENTS, frame_at, read_frame, stream_of, take_row
from listing import END, answer, beyond, needs_jam_off, refusal

DAY = 864_000_000_000
SECOND = 10_000_000
MILLISECOND = 10_000
OFFSETS = (0, 25_000, 9_999_999, -9_999_999, 10_000_000, -10_000_000, 2_147_483_647, -2_000_000_000, 9_900, -9_900, 9_901, -9_901)
FORBIDDEN = ((0, 0), (2, 1), (4, 1))        # A with M, C with D, X with D
ZEROS = (0, 0, 0, 0, 0)
WAIT_PLACES, BYTE_PLACES, FRAME_PLACES, UNTOUCHED = 10, 12, 104, 7
LONGEST_PACKET = 64         # bytes that a line can have to be read as a packet
MOST_MISSED, MOST_EDGES = 65_535, 70_000        # where the count holds; what one line can have


def days_in(year):
    return 366 if calendar.isleap(year) else 365


def date_of(year, day):
    return date(year, 1, 1) + timedelta(days=day - 1)


def read_words(words):
    """(number, day, tick) of five words."""
    d = [w // 16 ** (3 - k) % 16 for w in words for k in range(4)]
    if any(d[:3]) or d[19] or any(digit > 9 for digit in d):
        return 17, 0, 0
    day, hour = int("%d%d%d" % tuple(d[3:6])), d[6] * 10 + d[7]
    minute, second = d[8] * 10 + d[9], d[10] * 10 + d[11]
    if not 1 <= day <= 366 or hour > 23 or minute > 59 or second > 59:
        return 11, 0, 0
    return 0, day, ((hour * 60 + minute) * 60 + second) * SECOND + int("".join(map(str, d[12:19])))


def write_words(day, tick):
    """(number and five words) of a day and a tick of day."""
    if not 1 <= day <= 366 or tick >= DAY:
        return (11,) + ZEROS
    seconds, fraction = divmod(tick, SECOND)
    clock = "%02d%02d%02d" % (seconds // 3600, seconds // 60 % 60, seconds % 60)
    text = "%06d%s%07d0" % (day, clock, fraction)
    return (0,) + tuple(int(text[k:k + 4], 16) for k in range(0, 20, 4))


def write_packet(places, text, number):
    """A packet's own writing: `number` is what refuses its values."""
    row = [UNTOUCHED] * BYTE_PLACES
    packet = b"\x01" + text + b"\x17"
    if number == 0 and places < len(packet):
        number = 14
    if number:
        return (number, 0, *row)
    return (0, len(packet), *packet, *row[len(packet):])


def read_packet(bytes_):
    """A packet read on its own."""
    number = refusal(bytes_)
    if number:
        return (number,) + ZEROS
    ident, data = bytes_[1], bytes_[2:bytes_.index(END)]
    value = int(data) if ident in b"AG" else data[0]
    return 0, ident, int(value < 0), abs(value), data[1] if ident == ord("H") else 0, int(needs_jam_off(bytes_))


def elements(row):
    """A row of elements as a line has them; a space, a bar or the end of a line can't be among them."""
    text = "".join(chr((element + 48) % 256) for element in row)
    assert text.isascii() and not set(text) & set(" |\n")
    return text


@functools.cache
def falls(tick, strobe, period, count, ticks, most):
    """The ticks of a window on which something falls, each as (ticks since the start, what falls); no more than so many of them."""
    found = []
    round_, at = strobe or (1, 1)       # no division by 1 leaves 1
    for since in range(1, ticks + 1):
        tick += 1
        if tick == DAY:
            tick = 0
        what = 0
        if period:
            count += 1
            if count == period:
                count = 0
                what += 1
        if tick % round_ == at:
            what += 2
        if tick % SECOND == 0:
            what += 4
        if what:
            found.append((since, what))
            if len(found) == most:
                break
    return found


class Card:
    """What the page says of a card. Each call gives its number and its values, of a card that is lawful, and changes it."""

    def __init__(self):
        self.time = (1, 1, 0)
        self.strobe, self.periodic = (0,), (0,)     # off; else the kind and milliseconds, and n1, n2 and count
        self.mask = self.pending = self.level = self.vector = 0
        self.control, self.event_latch, self.time_latch = 0, ZEROS, ZEROS
        self.closed = self.missed = 0       # the event latch, and the count of edges that it missed
        self.mode, self.form, self.modulation, self.clock, self.generator, self.offset = 0, 1, 0, 0, 0, 0
        self.jam = 1
        self.done, self.queue, self.fill = 0, [0] * 64, 0

    def lawful(self):
        year, day, tick = self.time
        kind, ms = (*self.strobe, 0)[:2]
        n1, n2, count = self.periodic if len(self.periodic) == 3 else (2, 2, 0)
        return (1 <= year <= 9999 and 1 <= day <= days_in(year) and tick < DAY
                and ms < (1, 86_400_000, 1000)[kind]
                and n1 >= 2 and n2 >= 2 and count < n1 * n2
                and self.mask < 32 and self.pending < 32 and self.level < 8 and self.control in (range(4, 8) if self.closed else range(8))
                and all(latch == ZEROS or read_words(latch)[0] == 0 for latch in (self.time_latch, self.event_latch))
                and self.mode in (0, 1, 2, 3, 5, 6) and (self.form, self.modulation) not in FORBIDDEN and abs(self.offset) <= 9_999_999
                and not (self.jam and beyond(self.offset))
                and self.fill <= 64 and not any(self.queue[self.fill:]))

    def shown(self):
        queued = (f"{place}:{byte}" for place, byte in enumerate(self.queue) if byte)
        return (*self.time, *self.strobe, *self.periodic, self.mask, self.pending, self.level, self.vector, self.control, self.closed, self.missed,
                *self.event_latch, *self.time_latch, self.mode, self.form, self.modulation, self.clock, self.generator, int(self.offset < 0), abs(self.offset),
                self.jam, self.done, self.fill, *queued)

    def words(self):
        return write_words(*self.time[1:])[1:]

    # registers

    def read(self, register):
        if register > 18:
            return 1, 0
        if register == 13:
            return 2, 0
        if register == 0:
            self.time_latch = self.words()
            return 0, 0
        named = (0, *self.time_latch, *self.event_latch, self.control, self.done, 0, self.mask, self.pending, self.level, self.vector, self.missed)
        return 0, named[register]

    def write(self, register, value):
        if register > 18:
            return (1,)
        if 1 <= register <= 10:
            return (2,)
        if register == 0:
            self.time_latch = self.words()
        elif register == 11:
            self.control = value & 7
            if not value & 4:
                self.closed = 0
        elif register == 12:
            return self.acknowledge(value)
        elif register == 13:
            if self.fill == 64:
                return (3,)
            self.queue[self.fill] = value & 0xFF
            self.fill += 1
        elif register == 14:
            self.mask = value & 0x1F
        elif register == 15:
            self.pending &= ~value
        elif register == 16:
            self.level = value & 7
        elif register == 17:
            self.vector = value & 0xFF
        else:
            self.closed = self.missed = 0
        return (0,)

    def block(self, count, first, step):
        for taken in range(count):
            number, = self.write(13, (first + taken * step) % 256)
            if number:
                return number, taken
        return 0, count

    def acknowledge(self, value):
        if value & 1:
            self.done = 0
        if not value & 0x80:
            return (0,)
        piece = bytes(self.queue[:self.fill])
        number = answer(piece, self.jam)
        if number == 0:
            self.take(piece[1:2], piece[2:piece.index(0x17)].decode())
        self.queue, self.fill, self.done = [0] * 64, 0, int(number == 0)
        return (number,)

    def take(self, ident, said):
        if ident == b"A":
            self.mode = int(said)
        elif ident == b"G":
            self.offset = int(said)
        elif ident == b"H":
            self.form, self.modulation = "ABCNX".index(said[0]), "MD".index(said[1])
        elif ident == b"I":
            self.clock = int(said == "E")
        else:
            self.generator = int(said == "H")

    def edge(self, falling):
        if self.control & 3 == (3 if falling else 1):
            self.pending |= 1
            if self.closed:
                self.missed = min(self.missed + 1, MOST_MISSED)
            else:
                self.event_latch, self.closed = self.words(), int(self.control & 4 != 0)
        return (0,)

    def edges(self, times, falling):
        """One after another; the number is that of the last."""
        number = (0,)
        assert times <= MOST_EDGES
        for _ in range(times):
            number = self.edge(falling)
        return number

    def line(self):
        return (0, 1, self.level, self.vector) if self.level and self.mask & self.pending else (0, 0, 0, 0)

    # the jam, reset, and saved settings

    def switch(self, on):
        if on and beyond(self.offset):
            return (25,)
        self.jam = on
        return (0,)

    def reset(self):
        kept = self.time, self.mode, self.form, self.modulation, self.generator
        self.__init__()
        self.time, self.mode, self.form, self.modulation, self.generator = kept
        return (0,)

    def saved(self):
        bits = f"{self.mode:03b}{self.form:03b}{self.modulation}{self.clock}{self.generator}{int(self.offset < 0)}{abs(self.offset):024b}000000"
        return tuple(int(bits[k:k + 8], 2) for k in range(0, 40, 8))

    def save(self, places):
        if places < 5:
            return (14,) + (UNTOUCHED,) * BYTE_PLACES
        return (0, *self.saved(), *[UNTOUCHED] * (BYTE_PLACES - 5))

    def load(self, count, *form):
        bits = "".join(f"{byte:08b}" for byte in form[:count])
        if count != 5:
            return (19,)
        mode, kind, modulation = int(bits[:3], 2), int(bits[3:6], 2), int(bits[6])
        minus, size = int(bits[9]), int(bits[10:34], 2)
        if mode in (4, 7) or kind > 4 or (kind, modulation) in FORBIDDEN or size > 9_999_999 or (minus and size == 0) or "1" in bits[34:]:
            return (19,)
        offset = -size if minus else size
        if self.jam and beyond(offset):
            return (25,)
        self.mode, self.form, self.modulation, self.clock, self.generator, self.offset = mode, kind, modulation, int(bits[7]), int(bits[8]), offset
        return (0,)

    # frames

    def frame(self, places):
        row = [UNTOUCHED] * FRAME_PLACES
        if places < ELEMENTS:
            return 14, elements(row)
        return 0, elements(frame_at(*self.time[1:]) + row[ELEMENTS:])

    # time, strobe, periodic output

    def set_time(self, year, day, hour, minute, second):
        if not (1 <= year <= 9999 and 1 <= day <= days_in(year) and hour < 24 and minute < 60 and second < 60):
            return (11,)
        self.time = (year, day, ((hour * 60 + minute) * 60 + second) * SECOND)
        return (0,)

    def set_periodic(self, n1, n2):
        if not (2 <= n1 <= 65_535 and 2 <= n2 <= 65_535):
            return (12,)
        self.periodic = (n1, n2, 0)
        return (0,)

    def no_periodic(self):
        self.periodic = (0,)
        return (0,)

    def each_second(self, ms):
        if ms > 999:
            return (13,)
        self.strobe = (2, ms)
        return (0,)

    def daily(self, hour, minute, second, ms):
        if not (hour < 24 and minute < 60 and second < 60 and ms < 1000):
            return (13,)
        self.strobe = (1, ((hour * 60 + minute) * 60 + second) * 1000 + ms)
        return (0,)

    def no_strobe(self):
        self.strobe = (0,)
        return (0,)

    # waiting

    def ticks_left(self):
        """Up to the last tick of year 9999."""
        year, day, tick = self.time
        return (date.max - date_of(year, day)).days * DAY + DAY - 1 - tick

    def pass_(self, ticks):
        """So many ticks later."""
        year, day, tick = self.time
        days, tick = divmod(tick + ticks, DAY)
        then = date_of(year, day) + timedelta(days=days)
        self.time = (then.year, then.timetuple().tm_yday, tick)
        if len(self.periodic) == 3:
            n1, n2, count = self.periodic
            self.periodic = (n1, n2, (count + ticks) % (n1 * n2))

    def wait(self, places, ticks):
        number = 15 if ticks > DAY else 14 if places == 0 else 16 if ticks > self.ticks_left() else 0
        records, passed = [], 0
        if number == 0:
            n1, n2, count = self.periodic if len(self.periodic) == 3 else (0, 0, 0)
            strobe = {0: None, 1: (DAY, self.strobe[-1] * MILLISECOND), 2: (SECOND, self.strobe[-1] * MILLISECOND)}[self.strobe[0]]
            found = falls(self.time[2], strobe, n1 * n2, count, ticks, places + 1)
            passed = ticks if len(found) <= places else found[places - 1][0]
            for since, what in found[:places]:
                records.append(8 * since + what)
                self.pending |= what * 2        # the record's 1, 2 and 4 are the pending bits 1, 2 and 3
            self.pass_(passed)
        return (number, passed, len(records), *(records + [UNTOUCHED] * WAIT_PLACES)[:WAIT_PLACES])


# letter -> the call of a card, the values that a refusal by 18 gives back beside its number, and the call in words
BESIDE_WAIT = (0, 0) + (UNTOUCHED,) * WAIT_PLACES
CALLS = {
    "r": (Card.read, (0,), "read register {}"),
    "w": (Card.write, (), "write register {} with {:#06x}"),
    "b": (Card.block, (0,), "block of {}, {} and steps of {}"),
    "e": (Card.edge, (), "input edge"),
    "k": (Card.edges, (), "input edges"),
    "l": (Card.line, (0, 0, 0), "interrupt line"),
    "j": (Card.switch, (), "jam"),
    "x": (Card.reset, (), "reset"),
    "p": (Card.save, (UNTOUCHED,) * BYTE_PLACES, "save into {} places"),
    "o": (Card.load, (), "load {} bytes"),
    "t": (Card.set_time, (), "set time {} {} {} {} {}"),
    "d": (Card.set_periodic, (), "dividers {} and {}"),
    "q": (Card.no_periodic, (), "periodic off"),
    "s": (Card.each_second, (), "strobe each second at {} ms"),
    "a": (Card.daily, (), "strobe daily at {} {} {} {}"),
    "z": (Card.no_strobe, (), "strobe off"),
    "n": (Card.wait, BESIDE_WAIT, "wait {1}, {0} places"),
    "i": (Card.wait, BESIDE_WAIT, "wait in place {1}, {0} places"),
    "W": (Card.frame, (elements([UNTOUCHED] * FRAME_PLACES),), "frame into {} places"),
}


def in_words(letter, *numbers):
    if letter == "e":
        return "falling edge" if numbers[0] else "rising edge"
    if letter == "k":
        return f"{in_words('e', numbers[1])}, {numbers[0]} times"
    if letter == "j":
        return "jam on" if numbers[0] else "jam off"
    return CALLS[letter][2].format(*numbers)


class Script:
    """Lines of stdin, and beside them what must be written."""

    def __init__(self):
        self.asked, self.written, self.card = [], [], Card()

    def ask(self, words, letter, *numbers):
        self.asked.append(words + "|" + " ".join([letter, *map(str, numbers)]))

    def tell(self, words, values):
        self.written.append(words + "".join(f" {value}" for value in values))

    def say(self, words):
        self.asked.append(words + "|")
        self.written.append(words)

    # cards of any kind

    def fresh(self):
        self.ask("", "N")
        self.card = Card()

    def time(self, *three):
        self.ask("", "T", *three)
        self.card.time = three

    def sources(self, kind, ms, n1, n2, count):
        self.ask("", "S", kind, ms, n1, n2, count)
        self.card.strobe, self.card.periodic = ((kind, ms) if kind else (0,)), (n1, n2, count)

    def interrupts(self, *four):
        self.ask("", "I", *four)
        self.card.mask, self.card.pending, self.card.level, self.card.vector = four

    def event(self, control, *words):
        self.ask("", "E", control, *words)
        self.card.control, self.card.event_latch = control, words

    def closed(self, closed, missed):
        self.ask("", "C", closed, missed)
        self.card.closed, self.card.missed = closed, missed

    def latch(self, done, *words):
        self.ask("", "L", done, *words)
        self.card.done, self.card.time_latch = done, words

    def settings(self, *six):
        self.ask("", "M", *six)
        c = self.card
        c.mode, c.form, c.modulation, c.clock, c.generator = six[:5]
        c.offset = OFFSETS[six[5]]

    def jam(self, on):
        self.ask("", "O", on)
        self.card.jam = on

    def queue(self, fill, place, byte):
        self.ask("", "Q", fill, place, byte)
        self.card.queue = [0] * 64
        self.card.queue[place], self.card.fill = byte, fill

    def feed(self, bytes_):
        assert self.card.lawful()       # a torn card takes none
        self.ask("", "F", len(bytes_), *bytes_)
        for byte in bytes_:
            self.card.write(13, byte)

    # calls

    def call(self, words, letter, *numbers):
        """The call, with what it gives back; the number is handed on."""
        words = (words or in_words(letter, *numbers)) + ":"
        self.ask(words, letter, *numbers)
        done, beside_18, _ = CALLS[letter]
        values = done(self.card, *numbers) if self.card.lawful() else (18, *beside_18)
        self.tell(words, values)
        return values

    def show(self):
        self.ask("  the card:", "v")
        self.tell("  the card:", self.card.shown())

    def alone(self, words, letter, numbers, values):
        self.ask(words + ":", letter, *numbers)
        self.tell(words + ":", values)

    def packet(self, words, bytes_):
        """Read on its own."""
        assert len(bytes_) <= LONGEST_PACKET
        self.alone(words, "P", (len(bytes_), *bytes_), read_packet(bytes_))

    # frames, and a stream's rows

    def read(self, words, row):
        self.alone(words, "R", (elements(row),), read_frame(row))

    def change(self, place, element):
        """Of a lawful card: its frame with another element, read."""
        assert self.card.lawful()
        row = frame_at(*self.card.time[1:]) + [UNTOUCHED] * (FRAME_PLACES - ELEMENTS)
        row[place] = element
        self.alone(f"{element} at {place}", "m", (place, element), read_frame(row))

    def take(self, words, record, row):
        """The record afterwards is handed on."""
        held, marked, places = record
        number, taken, read, after = take_row(record, row)
        finished = (1, *read) if read else (0,)
        self.alone(words, "Y", (held, marked, elements(places).rstrip("0"), elements(row)), (number, taken, *finished, *after[:2], elements(after[2])))
        return after

    def lawful(self, words, record):
        held, marked, places = record
        self.alone(words, "y", (held, marked, elements(places).rstrip("0")), (int(stream_of(record) is not None),))

    def write_files(self, program):
        """The program reads its input in one piece."""
        assert sum(len(line) + 1 for line in self.asked) <= 65_536
        for name, lines in (("stdin", self.asked), ("stdout", self.written)):
            with open(f"crates/{program}/{name}", "w") as out:
                out.writelines(line + "\n" for line in lines)
