#!/usr/bin/env python3
"""Respells this repository's definitions and lemmas, once, after port.py: 'planNumber' and 'plan-number' become 'plan_number'.

usage: tools/respell.py TOP

tools/respell.tsv has a row for each name: old, a tab, new, and for some a tab and the files that the row is for. Whole words
turn, in specs/ and proofs/ and in src/. Strings stay, and in a comment only names with a capital turn, since a hyphen there
may be a sentence's own. Run it once, on what port.py wrote: a second run would turn two names that the first one made.
"""
import os
import re
import sys

WORD = re.compile(r"[^\s(){}\[\].;,@\"«»`]+")
QUIET = {
    ".rt": re.compile(r'b?"(?:\\.|[^"\\])*"|//[^\n]*'),
    ".antt": re.compile(r'"(?:\\.|[^"\\])*"|(?<![^\s(){}.;,])--[^\n]*'),
}


def turned(text, rows):
    return WORD.sub(lambda m: rows.get(m.group(0), m.group(0)), text)


def turn(text, rows, quiet):
    loud = {old: new for old, new in rows.items() if "-" not in old and old != old.lower()}
    out, at = [], 0
    for m in quiet.finditer(text):
        out.append(turned(text[at : m.start()], rows))
        out.append(turned(m.group(0), loud) if m.group(0)[:2] in ("--", "//") else m.group(0))
        at = m.end()
    out.append(turned(text[at:], rows))
    return "".join(out)


def main():
    top = sys.argv[1]
    here = os.path.dirname(os.path.abspath(__file__))
    with open(os.path.join(here, "respell.tsv"), encoding="utf-8") as f:
        table = [line.rstrip("\n").split("\t") for line in f if line.strip()]
    for folder, folders, files in os.walk(os.path.join(top, "crates")):
        folders[:] = [d for d in folders if d not in ("out", "must-fail", "data")]
        for name in files:
            path = os.path.join(folder, name)
            ending = os.path.splitext(name)[1]
            if ending not in QUIET:
                continue
            place = os.path.relpath(path, top)
            rows = {row[0]: row[1] for row in table if len(row) == 2 or place.startswith(row[2])}
            with open(path, encoding="utf-8") as f:
                old = f.read()
            new = turn(old, rows, QUIET[ending])
            if place == "crates/gap/proofs/Table.antt":
                new = new.replace("or-false ", "or_is_false ").replace("(or-false", "(or_is_false")
            if new != old:
                with open(path, "w", encoding="utf-8") as f:
                    f.write(new)


main()
