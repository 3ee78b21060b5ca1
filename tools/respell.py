#!/usr/bin/env python3
"""Brings the repository's own names to the spelling of today's library, by the table names.tsv beside this file (old name, new name).

usage: python3 tools/respell.py FOLDER     FOLDER is a checkout whose crates port.py has turned; run once

Definitions, fields and constructors in camel case and lemmas with dashes go to snake case; a dash stays between the names of two functions.
In the sources only ghost text has such names, and names of Rust code, which are in snake case as they are, are left alone.
"""
import os
import re
import sys

HERE = os.path.dirname(os.path.realpath(__file__))
WORD = re.compile(r"[^\s(){}\[\];,.:=λ\"|⌜⌝`/]+")


def table():
    with open(os.path.join(HERE, "names.tsv"), encoding="utf-8") as f:
        return dict(line.rstrip("\n").split("\t") for line in f)


def turned(text, names):
    return WORD.sub(lambda m: names.get(m.group(0), m.group(0)), text)


def main(root):
    names = table()
    camel = {o: n for o, n in names.items() if any(c.isupper() for c in o) and "-" not in o}
    for folder, dirs, files in os.walk(os.path.join(root, "crates")):
        dirs[:] = sorted(d for d in dirs if d != "out")
        for f in sorted(files):
            p = os.path.join(folder, f)
            if f.endswith(".antt"):
                use = names
            elif f.endswith((".rt", ".edit")):
                use = camel
            else:
                continue
            with open(p, encoding="utf-8") as g:
                old = g.read()
            new = turned(old, use)
            if new != old:
                with open(p, "w", encoding="utf-8") as g:
                    g.write(new)


if __name__ == "__main__":
    main(sys.argv[1])
