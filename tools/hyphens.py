#!/usr/bin/env python3
"""Brings this repository's own lemmas to today's spelling: words joined by _, where they were joined by a dash.

usage: python3 tools/hyphens.py    at the top of the repository, once, after tools/names.py and with proofs in today's form

A name that a definition or a function has already gets _lem behind it. Names that the toolchain makes, and those of its library, stay.
"""
import os
import re
from collections import defaultdict

WORD = r"[A-Za-z_][\w'\u2080-\u2089-]*"
SIGNED = re.compile(r"^\s*(?:(?:pub|abbrev|unfoldable|record|data|module)\s+)*(" + WORD + r")(\s*[({].*?)?\s*:\s")
# fields that would have the name of a definition beside them
FIELDS = {"crates/irig/": {"of-bytes": "rows_of_bytes"}, "sync/specs/Runs.antt": {"in-time": "pulse_in_time"}, "sync/proofs/Runs.antt": {"in-time": "pulse_in_time"}}
# before a name that the toolchain makes: a goal, or a step or a field of what is known at a goal
MADE = re.compile(r"(?<![\w'-])(goal|c|w)(\.[\w'-]+)*\.$")
IMPORTED = re.compile(r"^\s*use ([\w.'-]+)\.\{([^}]*)\}", re.M)


def files(*ends):
    for folder, dirs, names in os.walk("crates"):
        dirs[:] = sorted(d for d in dirs if d != "out")
        for n in sorted(names):
            if n.endswith(ends):
                yield os.path.join(folder, n)


def read(path):
    with open(path, encoding="utf-8") as f:
        return f.read()


def main():
    crates = "|".join(sorted(os.listdir("crates")))
    own, taken, sources, library = defaultdict(set), set(), defaultdict(set), defaultdict(set)
    for path in files(".antt", ".rt"):
        text = read(path)
        crate = path.split(os.sep)[1]
        if not path.endswith(".antt"):
            sources[crate] |= set(re.findall(WORD, text))
            continue
        taken |= set(re.findall(WORD, text))
        for m in IMPORTED.finditer(text):
            if not re.match(r"Rattle\.(" + crates + r")\.", m.group(1)):
                library[path] |= set(re.findall(WORD, m.group(2)))
        for line in text.split("\n"):
            m = SIGNED.match(line + " ")
            if m and "-" in m.group(1) and ": goal." not in line and ": tie." not in line and not line.lstrip().startswith("--"):
                own[m.group(1)].add(crate)
    turned = {}
    for n in own:
        now = n.replace("-", "_")
        if not n.endswith("-spec"):
            turned[n] = now + ("_lem" if now in taken or any(now in sources[c] for c in own[n]) else "")
    for path in files(".antt", ".edit"):
        text = read(path)

        def new(m, at):
            n, at = m.group(0), at + m.start()
            if n not in turned or n in library[path] or MADE.search(text[max(0, at - 80):at]):
                return n
            return next((names[n] for names in fields if n in names), turned[n])

        fields = [names for place, names in FIELDS.items() if place in path]

        def line(m):
            # in a comment only what stands between backticks is a name
            if m.group(0).lstrip().startswith(("--", "#")):
                return re.sub(r"`[^`\n]*`", lambda quoted: re.sub(WORD, lambda w: turned.get(w.group(0), w.group(0)), quoted.group(0)), m.group(0))
            return re.sub(WORD, lambda w: new(w, m.start()), m.group(0))

        out = re.sub(r"[^\n]+", line, text)
        if out != text:
            with open(path, "w", encoding="utf-8") as f:
                f.write(out)
    for n in sorted(turned):
        print(n, "->", turned[n])


main()
