#!/usr/bin/env python3
"""Wanted periods for the program `periods`, and the nearest pair that the page gives each: writes the program's stdin and stdout.

    python3 tests/periods.py          from the root of the repository

The pairs are found by their products and not by a search: a window of products is filled from all pairs of dividers that have a product in it, each product with its least n1,
and the products next to a wanted period are looked up there. Nothing of crates/ is read. How a line is written is in script.py: behind the number stand n1, n2, the period and
the distance.
"""
import bisect
import random

from script import Script

SMALLEST, LARGEST = 2, 65_535
SHORTEST, LONGEST = 400, 429_483_622_500        # in nanoseconds, as all periods are
TICK = 100
HALF = 1 << 32

# the middle of each window: the page's example and half of it; the longest periods of n1 = 2 and 3, or next to them; primes, which are no products; a quarter of the way to
# the top, where a search over n1 has the most to do, and three quarters
PLACES = (5_000, 10_000, 65_537, 131_071, 196_605, 1_000_003, 10_000_019, 100_000_007, 1_000_000_007, 1_073_709_056, 2_147_483_647, 3_221_127_169)
TOP = LARGEST * LARGEST
OUTSIDE = (0, 1, 99, 100, 200, 300, 399, LONGEST + 1, LONGEST + 100, 999_999_999_999)
# told by their halves, as those of more than thirteen digits must be; of the second and the third the low half alone would be a wanted period
WIDE = LONGEST, 2**40 + 1_000_000, 2**63 + 1_000_000, 2**64 - 1


class Window:
    """All products from `low` to `high`, in ticks, each with the least n1 that has it."""

    def __init__(self, low, high):
        self.least = {}
        for n1 in range(SMALLEST, LARGEST + 1):
            for n2 in range(max(SMALLEST, -(-low // n1)), min(LARGEST, high // n1) + 1):
                self.least.setdefault(n1 * n2, n1)
        self.products = sorted(self.least)

    def nearest(self, wanted):
        """The number, n1, n2, the period and the distance."""
        if not SHORTEST <= wanted <= LONGEST:
            return 21, 0, 0, 0, 0
        above = bisect.bisect_left(self.products, -(-wanted // TICK))
        next_to = self.products[max(above - 1, 0):above + 1]
        assert TICK * next_to[0] <= wanted <= TICK * next_to[-1]
        product = min(next_to, key=lambda p: (abs(TICK * p - wanted), p))
        n1 = self.least[product]
        return 0, n1, product // n1, TICK * product, abs(TICK * product - wanted)

    def gaps(self, at, count):
        """So many pairs of products with none between them, about `at`."""
        first = max(bisect.bisect_left(self.products, at) - count // 2, 0)
        part = self.products[first:first + count + 1]
        return zip(part, part[1:])


def tell(script, words, wanted, window):
    script.alone(words, "c", (wanted,), window.nearest(wanted))


def tell_gaps(script, window, at, count, rng):
    """Each product as it is, the middle between two, a nanosecond on either side of that, and any other period."""
    for low, high in window.gaps(at, count):
        middle = (low + high) * TICK // 2
        tell(script, "exact", low * TICK, window)
        tell(script, "tie", middle, window)
        tell(script, "below", middle - 1, window)
        tell(script, "above", middle + 1, window)
        tell(script, "any", rng.randint(low * TICK, high * TICK), window)


if __name__ == "__main__":
    rng, s = random.Random(5), Script()
    lowest = Window(SMALLEST * SMALLEST, 2_000)
    for wanted in range(SHORTEST, 1_001):
        tell(s, "low", wanted, lowest)
    for at in PLACES:
        window = Window(at - 400, at + 400)
        tell_gaps(s, window, at, 32, rng)
        tell(s, "place", at * TICK, window)
    highest = Window(TOP - 16 * LARGEST, TOP)
    tell_gaps(s, highest, 0, len(highest.products), rng)
    tell(s, "end", LONGEST, highest)
    tell(s, "end", LONGEST - 1, highest)
    for wanted in OUTSIDE:
        tell(s, "outside", wanted, lowest)
    for wanted in WIDE:
        s.alone("wide", "u", divmod(wanted, HALF), highest.nearest(wanted))
    s.write_files("periods")
