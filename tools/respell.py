#!/usr/bin/env python3
"""Brings this repository's own names in specs/, proofs/ and clauses to the spelling of today's Rattle: words in snake case, types in camel case.

usage: tools/respell.py [FOLDER]      the repository's top, or a folder with crates/ like it

It was run once, right after port.py, and is not to be run twice. respell.tsv has a row a name, old and new; 'CRATE:OLD' holds in that crate alone. Where two old
names would fall together the lemma's got '_lem'. Functions, fields, constants and types of src/ keep their names, and so do names of the kit's libraries.
A name with a dash is renamed in a comment only between backticks.
Each struct and enum here is plain numbers, which the older language copied unasked: it derives Clone and Copy.
"""
import os
import re
import sys

HERE = os.path.dirname(os.path.realpath(__file__))
TOKEN = re.compile(r"[^\s(){}.;,@\"«»\[\]\\`]+")


def table():
    everywhere, inside = {}, {}
    with open(os.path.join(HERE, "respell.tsv"), encoding="utf-8") as rows:
        for row in rows:
            old, new = row.rstrip("\n").split("\t")
            crate, colon, name = old.partition(":")
            if colon:
                inside.setdefault(crate, {})[name] = new
            else:
                everywhere[old] = new
    return everywhere, inside


def turned(text, names, mark):
    """The text with each token renamed; in a comment, which `mark` begins, a name with a dash only between backticks."""

    def one(m):
        return names.get(m[0], m[0])

    def line(text):
        at = text.find(mark)
        if at < 0 or (mark == "//" and "http" in text):
            return TOKEN.sub(one, text)
        code, said = text[:at], text[at:]
        parts = said.split("`")
        for i, part in enumerate(parts):
            parts[i] = TOKEN.sub(one if i % 2 else lambda m: m[0] if "-" in m[0] else names.get(m[0], m[0]), part)
        return TOKEN.sub(one, code) + "`".join(parts)

    return "\n".join(line(it) for it in text.split("\n"))


def main(root):
    everywhere, inside = table()
    changed = 0
    for folder, dirs, files in os.walk(os.path.join(root, "crates")):
        dirs[:] = sorted(it for it in dirs if it != "out")
        crate = os.path.relpath(folder, os.path.join(root, "crates")).split(os.sep)[0]
        names = {**everywhere, **inside.get(crate, {})}
        for file in sorted(files):
            if file.endswith((".antt", ".rt")):
                path = os.path.join(folder, file)
                with open(path, encoding="utf-8") as it:
                    was = it.read()
                now = turned(was, names, "--" if file.endswith(".antt") else "//").replace("#[derive(Drop)]", "#[derive(Clone, Copy)]")
                if now != was:
                    changed += 1
                    with open(path, "w", encoding="utf-8") as it:
                        it.write(now)
    print(f"respell: {changed} files changed")


main(sys.argv[1] if len(sys.argv) > 1 else os.path.dirname(HERE))
