#!/usr/bin/env python3
"""Spells this repository's own definitions and lemmas in snake case, by respelled.tsv beside this file: 'wellFormed' becomes 'well_formed'.

usage: tools/port/respell.py [--table] ROOT

Runs once, right after port.py of the kit. In the crates of ROOT it turns whole words of .antt files, of the clauses of .rt files and of must-fail edits, and code spans of .md files;
a comment's and a string's text that is no such word stays. Names of functions, types, fields and exports of src/ are in snake case already, so no word of the table is one.
--table writes the table anew from the names that stand in ROOT, but for the rows of OTHER below.
"""
import os
import re
import sys

HERE = os.path.dirname(os.path.realpath(__file__))
TABLE = os.path.join(HERE, "respelled.tsv")
WORD = re.compile(r"[^\s(){}.;,@\"«»:\[\]|`⌜⌝⟨⟩]+")
STRING = re.compile(r'"(?:[^"\\\n]|\\.)*"')
# Where the plain row would meet a name of the kit's, or follows a word of the kit's that has another name now.
OTHER = {"andThen": "and_next", "getD-again": "get_or-again", "getD-below": "get_or-below", "getD-empty": "get_or-empty", "getD-laid": "get_or-laid"}


def snake(name):
    parts = re.split(r"(-|→|·)", name)
    return "".join(re.sub(r"(?<=[a-z0-9])([A-Z])", lambda m: "_" + m[1].lower(), p) if p[:1].islower() else p for p in parts)


def files(root, endings):
    for folder, dirs, names in os.walk(root):
        dirs[:] = sorted(d for d in dirs if d not in ("out", "target", ".git"))
        for n in sorted(names):
            if n.endswith(endings):
                yield os.path.join(folder, n)


def make_table(root):
    found = set()
    for p in files(os.path.join(root, "crates"), (".antt",)):
        with open(p, encoding="utf-8") as f:
            text = re.sub(r"--[^\n]*", "", f.read())
        found |= {w for w in WORD.findall(text) if snake(w) != w}
    with open(TABLE, "w", encoding="utf-8") as f:
        for w in sorted(found):
            f.write(f"{w}\t{OTHER.get(w, snake(w))}\n")


def turn(path, table):
    with open(path, encoding="utf-8") as f:
        text = f.read()

    def words(t):
        return WORD.sub(lambda m: table.get(m[0], m[0]), t)

    if path.endswith(".md"):
        new = re.sub(r"`[^`\n]*`", lambda m: words(m[0]), text)
    elif path.endswith(".rt"):
        out, at = [], 0
        for m in STRING.finditer(text):
            out += [words(text[at : m.start()]), m[0]]
            at = m.end()
        new = "".join(out) + words(text[at:])
    else:
        new = words(text)
    if new != text:
        with open(path, "w", encoding="utf-8") as f:
            f.write(new)
        return 1
    return 0


def main(argv):
    if argv and argv[0] == "--table":
        make_table(argv[1])
        return
    with open(TABLE, encoding="utf-8") as f:
        table = dict(line.rstrip("\n").split("\t") for line in f)
    root = argv[0]
    count = sum(turn(p, table) for p in files(os.path.join(root, "crates"), (".antt", ".rt", ".edit")))
    pages = [p for p in files(root, (".md",)) if os.sep + "port" + os.sep not in p and os.path.basename(p) != "PORT.md"]
    count += sum(turn(p, table) for p in pages)
    print(f"respell: {count} files")


if __name__ == "__main__":
    main(sys.argv[1:])
