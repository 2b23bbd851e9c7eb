#!/usr/bin/env python3
"""The cases of the program `pulses`, and what the page says of each: writes the program's stdin and stdout.

    python3 tests/pulses.py            from the root of the repository

A line is a call on the SYNC board that the line before it left, a letter and decimal numbers:

    N a fresh board        s RC1 BASE (the switches)      p a step with a pulse      q a step without
    r HIGH LOW (a run of HIGH x 4294967296 + LOW quiet steps)      v the register      i the next interrupt      l whether the board is lawful
    b RC1 BASE SEEN ELAPSED BIT ERR SLO FAST (the record that is handed in from here on, lawful or not)

Behind it stand, after `=`, the number and what else the call gives back: the register's value; 1 and a vector, or 0 and 0 if none waits; for `l` only 1 or 0. After `:` stand
the board's eight fields, in the order of `b`. A line that begins with another letter, or with #, is only written again.

The answers are worked out here from the page; nothing of crates/ is read. A board is the microsecond of its last pulse, and what falls behind it is a list. Before anything
is written, that is held to a second board which knows of one microsecond at a time, and the set of lawful records to a search for all that calls can leave.
"""
import functools
import itertools
import random
from typing import NamedTuple

from script import Script

HALF, LONGEST = 1 << 32, (1 << 64) - 1


class Rules(NamedTuple):
    """The page's times, in microseconds; the checks below also use smaller ones."""
    second: int = 1_000_000
    earliest: int = 992_000
    latest: int = 1_008_000
    frequencies: tuple = (32, 64, 128, 256)

    @property
    def missing(self):
        """The microsecond behind a pulse on which the next one is missing."""
        return self.latest + 1


PAGE = Rules()
FRESH = (1, 0, 0, 0, 1, 0, 0, 0)
PRIORITY = (("ERR", 2), ("SLO", 1), ("FAST", 0))
BESIDE_18 = {"v": (0,), "i": (0, 0)}


def switches_fit(rc1, base):
    return rc1 in range(4) and base in range(0, 256, 16)


def lawful(record, rules=PAGE):
    """The records that calls can leave: `reachable` looks for them."""
    rc1, base, seen, elapsed, bit, err, slo, fast = record
    if not switches_fit(rc1, base):
        return False
    if not seen:
        return (elapsed, bit, err, slo, fast) == (0, 1, 0, 0, 0)
    if elapsed > rules.missing or (slo and not fast):
        return False
    return bool(bit) if elapsed == rules.missing else bool(slo or not err)


@functools.cache
def counts(second, f):
    """The microseconds behind a pulse on which the counts fall: the first at or after k seconds over the frequency."""
    return [-(-k * second // f) for k in range(1, f)]


class Board:
    """What the page says of the board. Time is absolute; all that falls behind a pulse is known when it comes."""

    def __init__(self, record=FRESH, rules=PAGE):
        self.rules = rules
        self.hand_in(record)

    def hand_in(self, record):
        self.torn = None if lawful(record, self.rules) else record
        self.rc1, self.base, seen, elapsed, self.bit, *waiting = record
        self.now, self.last = 0, -elapsed if seen else None
        self.waiting = {name for (name, _), waits in zip(PRIORITY, waiting) if waits}

    def record(self):
        if self.torn:
            return self.torn
        seen = self.last is not None
        elapsed = min(self.now - self.last, self.rules.missing) if seen else 0
        return (self.rc1, self.base, int(seen), elapsed, self.bit, *(int(name in self.waiting) for name, _ in PRIORITY))

    def counts(self):
        return counts(self.rules.second, self.rules.frequencies[self.rc1])

    def error(self):
        self.waiting.add("ERR")
        self.bit = 1

    def pulse(self):
        self.now += 1
        gap = None if self.last is None else self.now - self.last
        if gap is None or self.rules.earliest <= gap <= self.rules.latest:
            self.bit = 0
        elif gap < self.rules.earliest or gap == self.rules.missing:
            self.error()
        self.last = self.now
        self.waiting |= {"SLO", "FAST"}

    def quiet(self, n):
        begin, self.now = self.now, self.now + n
        if self.last is None:
            return
        if any(begin < self.last + at <= self.now for at in self.counts()):
            self.waiting.add("FAST")
        if begin < self.last + self.rules.missing <= self.now:
            self.error()

    def register(self):
        count = 0 if self.last is None else sum(self.last + at <= self.now for at in self.counts())
        return 0x8000 * self.bit + count

    def take(self):
        for name, vector in PRIORITY:
            if name in self.waiting:
                self.waiting.remove(name)
                return 1, self.base + vector
        return 0, 0

    def call(self, letter, *numbers):
        """What a call gives back: its number first, but for `l`."""
        if letter == "N":
            return self.hand_in(FRESH)
        if letter == "b":
            return self.hand_in(numbers)
        if letter == "l":
            return (int(self.torn is None),)
        if self.torn:
            return (18, *BESIDE_18.get(letter, ()))
        if letter == "s":
            if not switches_fit(*numbers):
                return (20,)
            self.hand_in((*numbers, *FRESH[2:]))
        elif letter == "p":
            self.pulse()
        elif letter == "q":
            self.quiet(1)
        elif letter == "r":
            self.quiet(numbers[0] * HALF + numbers[1])
        elif letter == "v":
            return 0, self.register()
        elif letter == "i":
            return (0, *self.take())
        return (0,)


# the second board, and what the first is held to


class Walker(Board):
    """The same board, of which only this microsecond is known: how many have passed since the pulse, the count, and whether a pulse is still waited for."""

    def hand_in(self, record):
        self.torn = None if lawful(record, self.rules) else record
        self.rc1, self.base, self.seen, elapsed, *self.flags = record
        self.passed = self.count = 0
        self.awaited = True
        if not self.torn:
            flags, self.flags = self.flags, [0] * 4
            self.quiet(elapsed)
            self.flags = flags

    def record(self):
        return self.torn or (self.rc1, self.base, self.seen, min(self.passed, self.rules.missing), *self.flags)

    def raise_(self, bit=0, err=0, slo=0, fast=0):
        self.flags = [old | new for old, new in zip(self.flags, (bit, err, slo, fast))]

    def tick(self):
        """A microsecond passes; with it, perhaps, the last one for the pulse."""
        self.passed += self.seen
        if self.awaited and self.passed > self.rules.latest:
            self.raise_(bit=1, err=1)
            self.awaited = False

    def pulse(self):
        self.tick()
        if self.seen and self.passed < self.rules.earliest:
            self.raise_(bit=1, err=1)
        elif self.awaited:
            self.flags[0] = 0
        self.passed = self.count = 0
        self.seen, self.awaited = 1, True
        self.raise_(slo=1, fast=1)

    def quiet(self, n):
        f = self.rules.frequencies[self.rc1]
        for _ in range(n):
            self.tick()
            if self.count + 1 < f and self.passed * f >= (self.count + 1) * self.rules.second:
                self.count += 1
                self.raise_(fast=1)

    def register(self):
        return self.flags[0] << 15 | self.count

    def take(self):
        for place, vector in ((1, 2), (2, 1), (3, 0)):
            if self.flags[place]:
                self.flags[place] = 0
                return 1, self.base + vector
        return 0, 0


def small_rules(draw):
    second = draw.randrange(12, 40)
    return Rules(second, second - draw.randrange(1, 8), second + draw.randrange(1, 8), tuple(sorted(draw.sample(range(2, 11), 4))))


def any_record(draw, rules):
    """The first lawful one of four, else a torn one."""
    for _ in range(4):
        elapsed = draw.choice((0, draw.randrange(rules.missing), rules.earliest - 1, rules.latest, rules.missing, rules.missing + 1))
        record = (draw.choice((0, 1, 2, 3, 4)), draw.choice((0, 16, 240, 8)), draw.choice((0, 1, 1, 1)), elapsed, *(draw.randrange(2) for _ in range(4)))
        if lawful(record, rules):
            break
    return record


def any_call(draw, rules):
    """A call with its numbers; runs mostly end where something may fall."""
    letter = draw.choice("sbbN" if draw.randrange(10) == 0 else "ppqqqrrrrrviil")
    if letter == "s":
        return letter, draw.choice((0, 1, 2, 3, 4)), draw.choice((0, 16, 240, 255))
    if letter == "r":
        return letter, 0, max(0, draw.choice((1, 2, rules.second // 4, rules.earliest, rules.second, rules.latest)) + draw.randrange(-2, 3))
    return (letter, *(any_record(draw, rules) if letter == "b" else ()))


def check_scripts():
    """Both boards through the same short scripts, with small times."""
    draw = random.Random(1)
    for _ in range(600):
        rules = small_rules(draw)
        boards = Board(rules=rules), Walker(rules=rules)
        for _ in range(60):
            call = any_call(draw, rules)
            one, other = (board.call(*call) for board in boards)
            assert one == other and boards[0].record() == boards[1].record(), (rules, call)


def check_gap():
    """The page's own times: one gap of each frequency, microsecond by microsecond, with everything taken as it comes."""
    for rc1, f in enumerate(PAGE.frequencies):
        walker, fell = Walker((rc1, 0, 1, 0, 0, 0, 0, 0)), []
        for at in range(1, PAGE.missing + 2):
            walker.quiet(1)
            if walker.flags != [0] * 4:
                fell.append((at, *walker.flags))
                walker.flags = [0] * 4
        assert fell == [(at, 0, 0, 0, 1) for at in counts(PAGE.second, f)] + [(PAGE.missing, 1, 1, 0, 0)], f


def reachable(make, moves, wanted):
    """All records with a wanted time that these moves can leave, from a board as it starts."""
    found, open_ = set(), [make(None).record()]
    while open_:
        record = open_.pop()
        if record in found or record[3] not in wanted:
            continue
        found.add(record)
        for move in moves(record):
            board = make(record)
            board.call(*move)
            open_.append(board.record())
    return found


def check_lawful():
    """18 is for a record that no calls could have left. The search goes through all of a small board, and at the page's own times from each landmark to the next."""
    def holds(rules, switches, make, moves, wanted):
        records = {(*switches, *rest) for rest in itertools.product((0, 1), wanted, *[(0, 1)] * 4)}
        assert reachable(make, moves, wanted) == {record for record in records if lawful(record, rules)}, rules

    draw = random.Random(2)
    for rc1 in (0, 1, 2, 3):
        switches = (rc1, 16 * rc1)
        start = (*switches, *FRESH[2:])
        rules = small_rules(draw)
        holds(rules, switches, lambda record: Walker(record or start, rules), lambda _: ("p", "q", "i"), range(rules.missing + 3))
        falls = counts(PAGE.second, PAGE.frequencies[rc1])
        ends = (at + n for at in (PAGE.earliest, PAGE.second, PAGE.latest) for n in (-2, -1, 0, 1, 2))
        marks = sorted({0, 1, 2, *falls, *(at - 1 for at in falls), *ends, HALF - 1})
        to_next = {one: ("r", 0, two - one) for one, two in zip(marks, marks[1:])}
        holds(PAGE, switches, lambda record: Board(record or start), lambda record: ("p", "q", "i", to_next.get(record[3], "q")), set(marks))


# the cases


class Pulses:
    """Lines of stdin, and beside them what must be written."""

    write_files = Script.write_files

    def __init__(self):
        self.asked, self.written, self.board = [], [], Board()

    def say(self, words):
        self.asked.append(f"# {words}")
        self.written.append(f"# {words}")

    def do(self, letter, *numbers):
        """The call, with what it gives back and the board afterwards."""
        line = " ".join([letter, *map(str, numbers)])
        values = self.board.call(letter, *numbers)
        given = f" = {' '.join(map(str, values))}" if values else ""
        self.asked.append(line)
        self.written.append(f"{line}{given} : {' '.join(map(str, self.board.record()))}")
        return values

    def all(self, *letters):
        for letter in letters:
            self.do(letter)

    def run(self, n):
        self.do("r", *divmod(n, HALF))

    def take_all(self):
        while self.do("i")[1]:
            pass

    def first_pulse(self, rc1=1, base=0):
        """A board whose first pulse came, with nothing waiting."""
        self.do("s", rc1, base)
        self.do("p")
        self.take_all()


def counting(s):
    for rc1, f in enumerate(PAGE.frequencies):
        s.say(f"{f} Hz: each count on its microsecond, and not on the one before")
        s.do("N")
        s.first_pulse(rc1, 16 * rc1)
        at = 0
        for falls in counts(PAGE.second, f):
            s.run(falls - at - 1)
            s.all("v", "q", "v")
            s.take_all()
            at = falls
        s.say("It holds at the frequency less one, at 1000000 and after, until the next pulse")
        s.run(PAGE.second - at - 1)
        s.all("v", "q", "v", "i", "q", "v")
        s.run(PAGE.latest - PAGE.second - 1)
        s.all("v", "i", "q", "v")
        s.take_all()
        s.run(PAGE.second)
        s.all("v", "i", "p", "v")
    s.say("FAST waits once, however many counts fell")
    s.first_pulse(3)
    s.run(100_000)
    s.all("i", "i", "v")


def meeting(s):
    s.say("A pulse on the microsecond of a count: the count starts at 0")
    for rc1, f in enumerate(PAGE.frequencies):
        falls = counts(PAGE.second, f)
        for k in (0, 1, f // 2, f - 3, f - 2):
            s.first_pulse(rc1, 32)
            s.run(falls[k] - 1)
            s.do("v")
            s.take_all()
            s.all("p", "v")
            s.take_all()
            s.run(falls[0] - 1)
            s.all("v", "q", "v")


GAPS = (1, 2, 991_998, 991_999, 992_000, 992_001, 1_000_000, 1_007_999, 1_008_000, 1_008_001, 1_008_002, 1_008_003, 3_000_000, HALF + 1, HALF + 992_000, HALF + 1_008_001)


def gaps(s):
    """What the pulse itself raises is seen where everything was taken before it."""
    for before, taken, words in (("", True, "the bit clear, with everything taken"), ("p", True, "the bit set, with everything taken"), ("", False, "the bit clear"),
                                 ("p", False, "the bit set and ERR waiting"), ("pi", False, "the bit set, with ERR taken")):
        s.say(f"A pulse 1, 2 and so on microseconds after one that left {words}")
        for gap in GAPS:
            s.first_pulse(2, 64)
            s.all(*before)
            s.run(gap - 1)
            s.do("v")
            if taken:
                s.take_all()
            s.all("p", "v")
            s.take_all()


def missing(s):
    s.say("A missing pulse: one ERR, on 1008001, for however long none comes")
    s.first_pulse()
    s.run(PAGE.latest)
    s.take_all()
    s.all("v", "q", "v")
    s.take_all()
    s.all("q", "i")
    s.run(PAGE.latest)
    s.all("i", "q", "i")
    s.run(1 << 40)
    s.all("i", "v")
    s.say("The late pulse after it leaves the bit and raises no second one; the next is missing too, and raises its own")
    s.all("p", "v")
    s.take_all()
    s.run(PAGE.latest)
    s.take_all()
    s.all("v", "q", "v")
    s.take_all()
    s.say("Late again; then in time, which clears the bit")
    s.all("p", "v")
    s.take_all()
    s.run(PAGE.earliest - 1)
    s.take_all()
    s.all("p", "v")
    s.take_all()
    s.say("Missing twice with nothing taken: ERR waits once")
    s.first_pulse()
    for _ in range(2):
        s.run(PAGE.missing)
        s.do("p")
    s.take_all()
    s.say("Two early ones, ERR taken between them, and then not")
    s.first_pulse()
    s.all("p", "i", "p")
    s.take_all()
    s.all("p", "q", "q", "p")
    s.take_all()
    s.say("An in-time pulse clears the bit while ERR still waits")
    s.first_pulse()
    s.all("p", "v")
    s.run(PAGE.second - 1)
    s.all("p", "v")
    s.take_all()
    s.say("A pulse held for 40 steps is 40 pulses, 39 of them early")
    s.do("N")
    s.all(*"p" * 40)
    s.take_all()


def first(s):
    for n in (0, 1, 15_625, 992_000, 1_008_001, HALF, LONGEST):
        s.say(f"The first pulse ever, after {n} quiet microseconds")
        s.do("N")
        s.run(n)
        s.all("v", "i", "q", "p", "v")
        s.take_all()
        s.run(PAGE.latest)
        s.all("p", "v")


def runs(s):
    s.say("Runs from each end of the held time, by which a shorter number would overflow")
    for elapsed, bit in ((0, 0), (1, 0), (15_624, 0), (999_999, 1), (1_007_999, 0), (1_008_000, 0), (1_008_001, 1)):
        ends = {HALF - elapsed, HALF - elapsed + 1, LONGEST - elapsed, LONGEST - elapsed + 1}
        for n in sorted({0, 1, 2, 1_008_000, 1_008_001, HALF - 1, HALF, HALF + 1, 1 << 63, (1 << 63) + 1, LONGEST - 1, LONGEST} | ends):
            if n <= LONGEST:
                s.do("b", 1, 16, 1, elapsed, bit, 0, 0, 0)
                s.run(n)
                s.do("v")
    s.say("One run, and beside it the same in parts")
    for parts in ((7, 0, 15_618), (500_000, 508_000), (500_000, 508_001), (1_008_000, 1), (HALF, 7), (7, HALF), (1 << 63, (1 << 63) - 1), ((1 << 63) - 1, 1 << 63),
                  (LONGEST, 0), (0, LONGEST), (1, LONGEST - 1), (1_008_000, LONGEST - 1_008_000), (100_801,) * 10):
        for cut in ((sum(parts),), parts):
            s.first_pulse()
            for n in cut:
                s.run(n)
            s.do("v")
            s.take_all()
    s.say("One run of 5 over a count, and beside it five steps")
    for steps in (False, True):
        s.first_pulse()
        s.run(15_622)
        if steps:
            s.all(*"qqqqq")
        else:
            s.run(5)


def taking(s):
    s.say("Each switch setting: ERR, SLO, FAST and then none")
    for rc1 in range(4):
        for base in range(0, 256, 16):
            s.do("s", rc1, base)
            s.all("v", "i", "p", "p", "v")
            s.take_all()
            s.do("v")
    for base in (0, 0xF0):
        s.say(f"Base {base}: what is raised again is taken again, in its place")
        s.first_pulse(1, base)
        s.all("p", "i", "i", "p", "i", "i", "i", "i")
        s.run(15_625)
        s.all("i", "i")
        s.run(15_624)
        s.all("i", "q", "i", "i")
        s.all("p", "i", "i", "q", "i", "i")
        s.run(PAGE.latest)
        s.all("i", "i", "i")


FOREIGN = ((4, 16), (255, 16), (256, 16), (HALF - 1, 16), (2, 8), (2, 15), (2, 17), (2, 241), (2, 255), (2, 256), (2, 272), (2, 65_536), (2, HALF - 16), (4, 8), (256, 256),
           (HALF - 1, HALF - 16), (HALF - 1, HALF - 1))


def switches(s):
    for words, record in (("on a fresh board", FRESH), ("with everything waiting", (2, 32, 1, 5, 1, 1, 1, 1)), ("with a pulse missing", (0, 240, 1, 1_008_001, 1, 1, 0, 0))):
        s.say(f"Switches refused 20, {words}")
        s.do("b", *record)
        for pair in FOREIGN:
            s.do("s", *pair)
        s.all("v", "i")
    s.say("Every base, and the first ones that are too large")
    for base in range(0, 274):
        s.do("s", 3, base)
    s.say("The same switches set again start the board anew")
    s.do("N")
    for _ in range(2):
        s.do("s", 2, 48)
        s.all("v", "p", "p", "v")
        s.run(20_000)
        s.do("v")
    s.do("s", 2, 48)
    s.all("v", "i", "q", "p", "v")
    s.take_all()


# every way to break a record, each alone: what is said, and the record
TORN = (
    ("RC1 4 before the first pulse", (4, 0, 0, 0, 1, 0, 0, 0)),
    ("RC1 4", (4, 0, 1, 5, 0, 0, 0, 0)),
    ("RC1 255", (255, 240, 1, 5, 0, 0, 0, 0)),
    ("base 1 before the first pulse", (1, 1, 0, 0, 1, 0, 0, 0)),
    ("base 1", (1, 1, 1, 5, 0, 0, 0, 0)),
    ("base 254, which has no vector for ERR", (1, 254, 1, 5, 1, 1, 1, 1)),
    ("base 255", (1, 255, 1, 5, 1, 0, 1, 1)),
    ("a microsecond before the first pulse", (1, 0, 0, 1, 1, 0, 0, 0)),
    ("1008001 microseconds before the first pulse", (1, 0, 0, 1_008_001, 1, 0, 0, 0)),
    ("the bit clear before the first pulse", (1, 0, 0, 0, 0, 0, 0, 0)),
    ("ERR before the first pulse", (1, 0, 0, 0, 1, 1, 0, 0)),
    ("SLO before the first pulse", (1, 0, 0, 0, 1, 0, 1, 0)),
    ("FAST before the first pulse", (1, 0, 0, 0, 1, 0, 0, 1)),
    ("everything before the first pulse", (1, 0, 0, 0, 1, 1, 1, 1)),
    ("SLO without FAST", (1, 0, 1, 0, 0, 0, 1, 0)),
    ("SLO without FAST, at 1008000", (1, 0, 1, 1_008_000, 0, 0, 1, 0)),
    ("SLO without FAST, at 1008001", (1, 0, 1, 1_008_001, 1, 0, 1, 0)),
    ("ERR and SLO without FAST", (1, 0, 1, 0, 1, 1, 1, 0)),
    ("ERR without SLO", (1, 0, 1, 0, 1, 1, 0, 1)),
    ("ERR without SLO, the bit clear", (1, 0, 1, 5, 0, 1, 0, 1)),
    ("ERR alone, at 1008000", (1, 0, 1, 1_008_000, 1, 1, 0, 0)),
    ("the bit clear at 1008001", (1, 0, 1, 1_008_001, 0, 0, 0, 0)),
    ("the bit clear at 1008001, everything waiting", (1, 0, 1, 1_008_001, 0, 1, 1, 1)),
    ("1008002 microseconds", (1, 0, 1, 1_008_002, 1, 0, 0, 0)),
    ("4294967295 microseconds", (3, 240, 1, HALF - 1, 1, 1, 1, 1)),
    ("4294967295 microseconds, the bit clear", (3, 240, 1, HALF - 1, 0, 0, 0, 0)),
)
# the nearest records that calls can leave
SOUND = (
    ("before the first pulse", (3, 240, 0, 0, 1, 0, 0, 0)),
    ("nothing waiting", (0, 0, 1, 0, 0, 0, 0, 0)),
    ("FAST alone, at 1008000", (1, 0, 1, 1_008_000, 1, 0, 0, 1)),
    ("SLO and FAST", (2, 16, 1, 0, 0, 0, 1, 1)),
    ("everything waiting, the bit clear", (3, 240, 1, 1_008_000, 0, 1, 1, 1)),
    ("ERR alone, at 1008001", (1, 0, 1, 1_008_001, 1, 1, 0, 0)),
    ("ERR and FAST, at 1008001", (1, 0, 1, 1_008_001, 1, 1, 0, 1)),
    ("SLO and FAST, at 1008001", (1, 0, 1, 1_008_001, 1, 0, 1, 1)),
    ("only the bit, at 1008001", (1, 0, 1, 1_008_001, 1, 0, 0, 0)),
)
CALLS = (("l",), ("v",), ("i",), ("q",), ("p",), ("r", 0, 0), ("r", 0, 1), ("r", HALF - 1, HALF - 1), ("s", 4, 8), ("s", 2, 32))


def records(s):
    for words, record in TORN:
        s.say(f"Handed in with {words}: 18 from every call, also where another number would come, and nothing changes")
        assert not lawful(record)
        s.do("b", *record)
        for call in CALLS:
            s.do(*call)
    for words, record in SOUND:
        s.say(f"Handed in with {words}: taken by every call")
        assert lawful(record)
        for call in CALLS:
            s.do("b", *record)
            s.do(*call)
    s.say("Every way for the flags to stand, at some times")
    for seen, elapsed in itertools.product((0, 1), (0, 1, 992_000, 1_008_000, 1_008_001, 1_008_002)):
        for flags in itertools.product((0, 1), repeat=4):
            s.do("b", 0, 0, seen, elapsed, *flags)
            s.all("l", "v", "i", "q", "p")
    s.say("Some of RC1, and every base")
    for rc1 in (*range(9), 16, 32, 64, 127, 128, 129, 254, 255):
        s.do("b", rc1, 0, 1, 7, 0, 0, 0, 0)
        s.do("l")
    for base in range(256):
        s.do("b", 0, base, 0, 0, 1, 0, 0, 0)
        s.do("l")


def many(s):
    s.say("Many calls in a row")
    draw = random.Random(3)
    s.do("N")
    for _ in range(1_200):
        s.do(*any_call(draw, PAGE))


if __name__ == "__main__":
    for check in (check_scripts, check_gap, check_lawful):
        check()
    s = Pulses()
    for part in (counting, meeting, gaps, missing, first, runs, taking, switches, records, many):
        part(s)
    s.write_files("pulses")
