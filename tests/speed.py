#!/usr/bin/env python3
"""Times the loops of the program `speed`, of several builds of it beside each other.

    cc -O3 -march=native tests/speed.c -o NAME                  the same program in C (-mcpu=native on Arm)
    python3 tests/speed.py NAME=PROGRAM NAME=PROGRAM ..         from the root of the repository
        [--loops WORD,WORD]    only loops whose name has one of these words in it
        [--rounds N]           runs of each, of which the least counts (5)
    python3 tests/speed.py --expect PROGRAM                     writes the program's args, and its stdout from the program in C

The programs are run natively: an emulator's times say nothing. First it is checked that all write the same checksums; a loop that one of them does not know is left out of its column.
Then each loop is run so often that a run takes about a fifth of a second, the programs in turn. What counts is the time that the process itself took, less that of a run of no calls. The
table has ns for each call, or, for waits with many places and for the plain fill, for each record; and the ratio to the first program. Behind the records of the first program
stands their ratio to the plain fill of as many places.
"""
import os
import subprocess
import sys
from math import gcd, lcm

CALLS = """words read-words read-packet write-packet lawful-fresh lawful-busy line read-intstat read-time write-mask-fresh write-mask-busy edge-captured edge-passed
    set-time set-strobe set-dividers reset save-load packet-a packet-g block-g""".split()

# What falls beside the second: dividers, 0 for off; the strobe, 0 for off, 1 for daily, 2 for each second; and its millisecond.
MIXES = {
    "second": (0, 0, 0, 0),
    "second, strobe": (0, 0, 2, 200),
    "second and strobe on one tick": (0, 0, 2, 0),
    "2 x 2": (2, 2, 0, 0),
    "500 x 500": (500, 500, 0, 0),
    "1000 x 1000": (1000, 1000, 0, 0),
    "65535 x 65535": (65535, 65535, 0, 0),
    "2000 x 2000, strobe": (2000, 2000, 2, 200),
    "1777 x 1999, strobe": (1777, 1999, 2, 200),
    "65535 x 65535, strobe": (65535, 65535, 2, 200),
    "2500 x 4000, strobe": (2500, 4000, 2, 200),
    "10000 x 5000, strobe": (10000, 5000, 2, 200),
    "2000 x 2000, daily strobe": (2000, 2000, 1, 123),
}
KINDS = {"wait": "by value", "wait-in-place": "in place"}
ROOMS = (1_000, 100_000, 1_000_000)
DAY, SECOND = 864_000_000_000, 10_000_000
RUN = 0.2


def wait_name(kind, mix, places):
    return " ".join(map(str, (kind, *MIXES[mix], places)))


def all_loops():
    """Every loop once, as the gate runs them: waits with all places and with one."""
    return ["fill", *CALLS, *(wait_name(kind, mix, places) for mix in MIXES for kind in KINDS for places in (0, 1))]


def records(mix, room):
    """How many records a wait of a day writes: as many as there are places, or as many ticks as something falls on, where the count is that of the first wait, which begins on a whole second."""
    n1, n2, strobe, ms = MIXES[mix]
    beats = [0, ms * 10_000] if strobe == 2 and ms else [0]
    falls = len(beats) * DAY // SECOND
    if n1:
        falls += DAY // (n1 * n2) - sum(DAY // lcm(n1 * n2, SECOND) for at in beats if at % gcd(n1 * n2, SECOND) == 0)
    return min(room, falls)


def written(program, times, room, loops):
    run = subprocess.run([program, str(times), str(room), *loops], stdout=subprocess.PIPE, text=True, check=True)
    return run.stdout.splitlines()


def taken(program, times, room, loop):
    """The seconds that a run takes of the processor, in the program itself."""
    child = os.fork()
    if not child:
        os.dup2(os.open(os.devnull, os.O_WRONLY), 1)
        os.execv(program, [program, str(times), str(room), loop])
    _, status, used = os.wait4(child, 0)
    if status:
        sys.exit(f"{program} {times} {room} '{loop}': status {status}")
    return used.ru_utime


def knows(program, loop):
    return not written(program, 0, 1, [loop])[0].endswith(" unknown")


def check(programs):
    """All programs write the same lines, for some times and rooms."""
    loops = [loop for loop in all_loops() if all(knows(program, loop) for program in programs.values())]
    for times, room in ((0, 1), (1, 1), (5, 1_000), (40, 5_003), (2, 1_000_000)):
        first, *others = (written(program, times, room, loops) for program in programs.values())
        for name, lines in zip(list(programs)[1:], others):
            for a, b in zip(first, lines):
                if a != b:
                    sys.exit(f"{times} times, {room} places: {list(programs)[0]} writes '{a}', {name} '{b}'")
    print(f"{len(loops)} loops: all of {', '.join(programs)} write the same checksums\n")


def timed(programs, room, loop, rounds):
    """The seconds of one call, for each program that knows the loop: the least of several runs each, in turn."""
    known = [name for name in programs if knows(programs[name], loop)]
    times, empty = {}, {}
    for name in known:
        times[name] = 1
        while (took := taken(programs[name], times[name], room, loop)) < RUN / 8:
            times[name] *= 8
        times[name] = max(1, round(times[name] * RUN / took))
        empty[name] = min(taken(programs[name], 0, room, loop) for _ in range(3))
    least = dict.fromkeys(known, float("inf"))
    for _ in range(rounds):
        for name in known:
            least[name] = min(least[name], taken(programs[name], times[name], room, loop))
    return {name: (least[name] - empty[name]) / times[name] for name in known}


def put(words, call, programs, each, fill=None):
    """A line: the ns for each of so many records, or of one call, their ratios, and that to the fill."""
    ns = [call[name] * 1e9 / each if name in call else None for name in programs]
    first = ns[0]
    cells = ["".join(f"{n:11.3f}" if n is not None and each > 1 else f"{n:11.2f}" if n is not None else " " * 11 for n in ns)]
    cells.append("".join(f"{first / n:10.2f}" if n is not None and first is not None else " " * 10 for n in ns[1:]))
    if fill is not None and first is not None:
        cells.append(f"{first / fill:10.2f}")
    print(f"{words:58}" + "".join(cells), flush=True)


def table(programs, words, rounds):
    def wanted(*names):
        return not words or any(word in name for word in words for name in names)

    names = list(programs)
    ratios = "".join(f"{'to ' + name:>10}" for name in names[1:])
    print(f"{'ns a call':58}" + "".join(f"{name:>11}" for name in names) + ratios)
    for loop in CALLS:
        if wanted(loop):
            put(loop, timed(programs, 1, loop, rounds), programs, 1)
    for kind in KINDS:
        for mix in MIXES:
            loop = wait_name(kind, mix, 1)
            if wanted(loop, mix):
                put(f"wait {KINDS[kind]}, one place: {mix}", timed(programs, 1, loop, rounds), programs, 1)
    print(f"\n{'ns a record':58}" + "".join(f"{name:>11}" for name in names) + ratios + f"{'to fill':>10}")
    for room in ROOMS:
        fill = timed(programs, room, "fill", rounds)
        if wanted("fill"):
            put(f"plain fill, {room:,} places", fill, programs, room)
        for kind in KINDS:
            for mix in MIXES:
                loop, each = wait_name(kind, mix, 0), records(mix, room)
                if wanted(loop, mix) and (each == room or room == ROOMS[-1]):
                    put(f"wait {KINDS[kind]}, {each:,} records: {mix}", timed(programs, room, loop, rounds), programs, each, fill[names[0]] * 1e9 / room)


def expect(program):
    arguments = ["5", "1000", *all_loops(), "no-such-loop"]
    with open("crates/speed/args", "w") as out:
        out.writelines(word + "\n" for word in arguments)
    with open("crates/speed/stdout", "w") as out:
        out.writelines(line + "\n" for line in written(program, *arguments[:2], arguments[2:]))


def main(words):
    if words[:1] == ["--expect"] and len(words) == 2:
        return expect(words[1])
    programs, loops, rounds = {}, [], 5
    while words:
        word = words.pop(0)
        if word == "--loops" and words:
            loops = words.pop(0).split(",")
        elif word == "--rounds" and words:
            rounds = int(words.pop(0))
        elif "=" in word:
            name, program = word.split("=", 1)
            programs[name] = os.path.abspath(program)
        else:
            sys.exit(__doc__)
    if not programs:
        sys.exit(__doc__)
    check(programs)
    table(programs, loops, rounds)


if __name__ == "__main__":
    main(sys.argv[1:])
