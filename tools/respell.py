#!/usr/bin/env python3
"""Brings the names of definitions and lemmas to snake case, by the table respell.txt beside this file.

usage: python3 tools/respell.py [ROOT]     once, after the kit's port.py, over every crate, the documents and the edits

A line of the table is an old name, its new one and, where it is a field of a record, the word `field`. Names go whole: a name with a dash is
turned in specs/, proofs/ and the ghost lines and clauses of src/, and behind a dot only where it is a field, since what stands behind a dot
is otherwise a name that the checker makes. Names of functions in src/, strings, inputs and outputs are not in the table.
"""

import os
import re
import sys

HERE = os.path.dirname(os.path.realpath(__file__))
TOKEN = re.compile(r"[^\s(){}\[\];,.:`\"«»⌜⌝]+")
STRING = re.compile(r'("(?:[^"\\\n]|\\.)*")')
GHOST = re.compile(r"^\s*(pub )?(ghost|requires|ensures)\b")


def table():
    names, fields = {}, set()
    with open(os.path.join(HERE, "respell.txt"), encoding="utf-8") as f:
        for line in f:
            old, new, *kind = line.split()
            names[old] = new
            if kind:
                fields.add(old)
    return names, fields


def respelled(text, names, fields, dashes):
    def one(m):
        word = m.group(0)
        new = names.get(word)
        if new is None:
            return word
        if "-" in word:
            dotted = m.start() > 0 and text[m.start() - 1] == "."
            if not dashes or (dotted and word not in fields):
                return word
        return new

    return TOKEN.sub(one, text)


def outside(text, names, fields, dashes):
    """The text respelled, but for what stands in strings: those are inputs and outputs."""
    parts = STRING.split(text)
    return "".join(x if i % 2 else respelled(x, names, fields, dashes) for i, x in enumerate(parts))


def turned(path, text, names, fields):
    if path.endswith(".antt"):
        return outside(text, names, fields, True)
    if path.endswith(".rt"):
        lines = text.split("\n")
        return "\n".join(outside(l, names, fields, bool(GHOST.match(l))) for l in lines)
    return respelled(text, names, fields, False)


def main():
    root = sys.argv[1] if len(sys.argv) > 1 else "."
    names, fields = table()
    count = 0
    for folder, dirs, files in os.walk(root):
        dirs[:] = sorted(d for d in dirs if d not in ("out", "target", ".git", "tools", "data"))
        for name in sorted(files):
            path = os.path.join(folder, name)
            if not name.endswith((".antt", ".rt", ".edit", ".md")):
                continue
            with open(path, encoding="utf-8") as f:
                old = f.read()
            new = turned(path, old, names, fields)
            if new != old:
                count += 1
                with open(path, "w", encoding="utf-8") as f:
                    f.write(new)
    print(f"{count} files respelled")


main()
