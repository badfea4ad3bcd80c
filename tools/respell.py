#!/usr/bin/env python3
"""Brings the names of definitions and lemmas to today's spelling, by the rows of respell.tsv (old, a tab, new).

usage: python3 tools/respell.py        at the top of the repository, once, after the kit's port.py

Words become snake case; a lemma that would have its function's name gets _lem. Whole names turn, in every .antt file, in the clauses and
comments of every .rt file, in must-fail edits, and in the code spans of .md files. Names of Rust items, strings, inputs and outputs stay: none
of them is spelled like a row. A step of a function's proof is named after the function that it calls, so it stays too.
"""

import os
import re

HERE = os.path.dirname(os.path.abspath(__file__))
TOP = os.path.dirname(HERE)
WORD = re.compile(r"[^\s(){}.;,@\"«»\x60|/:\[\]*]+")
SPAN = re.compile(r"\x60[^\x60\n]+\x60")
STRING = re.compile(r'b?"(?:\\.|[^"\\\n])*"')


def rows():
    with open(os.path.join(HERE, "respell.tsv"), encoding="utf-8") as f:
        return dict(line.rstrip("\n").split("\t") for line in f if line.strip())


def steps():
    """What a proof calls the step at a call of a function."""
    names = set()
    for path in files(".rt"):
        with open(path, encoding="utf-8") as f:
            names |= {m[1].replace("_", "-") for m in re.finditer(r"\bfn (\w+)", f.read())}
    return names


def files(*ends):
    for folder, dirs, names in os.walk(TOP):
        dirs[:] = sorted(d for d in dirs if d not in ("out", ".git", "target", "tools"))
        for name in sorted(names):
            if name.endswith(ends):
                yield os.path.join(folder, name)


def turn(text, table, kept=()):
    def one(m):
        word = m[0]
        if word in kept and text[m.start() - 1 : m.start()] == ".":
            return word
        bare = word.rstrip("'₀₁₂")
        if word in table:
            return table[word]
        return table.get(bare, bare) + word[len(bare) :]

    return WORD.sub(one, text)


def turn_code(text, table):
    """A .rt file: hyphens are minus signs outside clauses and comments, and strings stay."""
    camel = {old: new for old, new in table.items() if "-" not in old}

    def line(text):
        code, slashes, comment = text.partition("//")
        parts, at = [], 0
        for m in STRING.finditer(code):
            parts += [turn(code[at : m.start()], camel), m[0]]
            at = m.end()
        return "".join(parts) + turn(code[at:], camel) + slashes + turn(comment, table)

    return "\n".join(line(part) for part in text.split("\n"))


def main():
    table, kept = rows(), steps()
    for path in files(".antt", ".rt", ".edit", ".md"):
        with open(path, encoding="utf-8") as f:
            text = f.read()
        if path.endswith(".rt"):
            new = turn_code(text, table)
        elif path.endswith(".md"):
            new = SPAN.sub(lambda m: turn(m[0], table), text)
        elif re.search(r"/proofs/[^/]+/", path):
            new = turn(text, table, kept)
        else:
            new = turn(text, table)
        if new != text:
            with open(path, "w", encoding="utf-8") as f:
                f.write(new)


main()
