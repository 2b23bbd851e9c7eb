#!/usr/bin/env python3
"""Brings this repository's own definitions and lemmas to today's spelling: words in snake case, modules and facts in upper camel case.

usage: python3 tools/names.py    at the top of the repository, once, after the toolchain's port.py

Names of functions, strings, inputs and outputs stay as they are. It prints each name that it turned.
"""
import os
import re

NAME = re.compile(r"[A-Za-z_][\w'\u2080-\u2089-]*")
CAMEL = re.compile(r"(?:^|-)[a-z][a-z0-9_]*[A-Z]")
# modules under another name, and facts: upper camel case
UPPER = {"clockAnswer": "ClockAnswer", "clockLaws": "ClockLaws"}
FACTS = {"comes": "Comes"}
# lemmas that would have the name of a definition
LEMMAS = ["goes_on", "number_read", "one_by_one", "found_all", "digits_of", "read_number", "read_as"]
# names that the toolchain makes, and numbers
MADE = re.compile(r"^(x[0-9A-F]+|mut_Tells|mut_slice_Tells|walk_Meets)$")


def snake(name):
    return re.sub(r"(?<=[a-z0-9])([A-Z])", lambda m: "_" + m.group(1).lower(), name)


def files():
    for folder, dirs, names in os.walk("crates"):
        dirs[:] = sorted(d for d in dirs if d != "out")
        for n in sorted(names):
            if n.endswith((".antt", ".rt", ".edit")):
                yield os.path.join(folder, n)
    for folder in (".", "docs", "docs/changes"):
        for n in sorted(os.listdir(folder)):
            if n.endswith(".md"):
                yield os.path.join(folder, n)


def read(path):
    with open(path, encoding="utf-8") as f:
        return f.read()


def main():
    turned = {}
    for path in files():
        if not path.endswith((".antt", ".rt")):
            continue
        for m in NAME.finditer(read(path)):
            w = m.group(0)
            if CAMEL.search(w) and not MADE.match(w):
                turned[w] = UPPER.get(w) or snake(w)
    turned |= FACTS
    for path in files():
        text = read(path)
        lemmas = path.endswith(".antt") and "/proofs/" in path

        def new(m):
            w = m.group(0)
            if lemmas and w in LEMMAS and text[m.start() - 1:m.start()] not in (".", ":"):
                return w + "_lem"
            if w in FACTS and (not path.startswith("crates/clock") or not path.endswith(".antt") or text[text.rfind("\n", 0, m.start()) + 1:m.start()].lstrip().startswith("--")):
                return w
            return turned.get(w, w)

        out = NAME.sub(new, text)
        if out != text:
            with open(path, "w", encoding="utf-8") as f:
                f.write(out)
    for old, now in sorted(turned.items()):
        print(old, "->", now)


main()
