#!/usr/bin/env python3
"""Brings this repository's own definitions, fields and lemmas to snake case, after port.py: tools/names.txt has the old and the new name of each.

usage: tools/rename_names.py        at the top of the repository

In comments only camel case is respelled, since words with a dash are also plain English there. Pages are not touched.
"""
import os
import re
import sys

TOKEN = re.compile(r"[A-Za-z_][\w'′₀-₉]*(?:-[A-Za-z0-9_][\w'′₀-₉]*)*")
HERE = os.path.dirname(os.path.abspath(__file__))
# A lemma that would have the name of the definition setAfter: these files cite the lemma.
LEMMA = {"crates/finite/proofs/Packed.antt", "crates/sheet/proofs/Marks.antt"}


def names():
    with open(os.path.join(HERE, "names.txt"), encoding="utf-8") as f:
        return dict(line.split() for line in f if line.strip())


def turned(text, table):
    return TOKEN.sub(lambda m: table.get(m.group(), m.group()), text)


def lines(text, mark, table, camel):
    for line in text.splitlines(keepends=True):
        code, dash, comment = line.partition(mark)
        yield turned(code, table) + dash + turned(comment, camel)


def main():
    table = names()
    camel = {a: b for a, b in table.items() if "-" not in a}
    changed = 0
    for folder, dirs, files in os.walk("crates"):
        dirs[:] = sorted(d for d in dirs if d != "out")
        for name in sorted(files):
            path = os.path.join(folder, name)
            mark = {".antt": "--", ".rt": "//", ".edit": "#"}.get(os.path.splitext(name)[1])
            if not mark:
                continue
            with open(path, encoding="utf-8") as f:
                old = f.read()
            mine = dict(table, set_after="set_after_lem") if path in LEMMA else table
            new = "".join(lines(old, mark, mine, camel))
            if name.endswith(".antt"):
                new = new.replace("′", "'")
            if new != old:
                with open(path, "w", encoding="utf-8") as f:
                    f.write(new)
                changed += 1
    print(f"{changed} files respelled")
    return 0


if __name__ == "__main__":
    sys.exit(main())
