#!/usr/bin/env python3
"""Spells the repository's own definitions, lemmas and fields in snake case: once, right after the toolchain's own script.

usage: python3 tools/snake_case.py [FOLDER]

snake_case.tsv, beside this file, has each old name and its new one. A test, which ended in a question mark, begins with `is_`
or `are_`. Where two names would fall together, one has `_lem` behind it, mostly the lemma's, or `_holds`, a field's. Names of
functions, of exported symbols, strings, inputs and outputs stay, and so do names that begin with a capital letter.
"""
import os
import re
import sys

HERE = os.path.dirname(os.path.realpath(__file__))
NAME = r"[^\s(){}.:;,@\"`\[\]«»]+"
TOKEN = re.compile(rf'"(?:[^"\\\n]|\\.)*"|{NAME}')
USE = re.compile(r"^\s*(?:pub )?(?:ghost )?use ([^\s{;]+)")
# A function's proof cites names of the code behind a dot.
HAND = re.compile(r"/proofs/.+/(?:Proof|Answers|Invariants)\.antt$")


def texts(root):
    for folder, folders, files in os.walk(os.path.join(root, "crates")):
        folders[:] = sorted(f for f in folders if f != "out")
        for f in sorted(files):
            if f.endswith((".antt", ".rt")):
                yield os.path.join(folder, f)


def table():
    with open(os.path.join(HERE, "snake_case.tsv"), encoding="utf8") as f:
        return dict(line.rstrip("\n").split("\t") for line in f)


def plain(name):
    return "-" not in name and "?" not in name and not re.search("[a-z0-9][A-Z]", name)


def renamed(text, new, path):
    code = path.endswith(".rt")
    hand = HAND.search(path)

    def line_of(line):
        use = USE.match(line)
        start = use.end() if use else 0

        def one(m):
            n = m[0]
            if n[0] == '"' or n not in new or m.start() < start:
                return n
            if code and plain(n):
                return n
            if hand and m.start() and line[m.start() - 1] == ".":
                if re.search(r"(?:tie|goal|given)\.$", line[: m.start()]):
                    return n
                if new[n] != n.replace("-", "_") and plain(n.replace("-", "_")):
                    return n
            return new[n]

        if not code and line.lstrip().startswith("--"):
            return re.sub(r"`[^`]*`", lambda m: TOKEN.sub(lambda n: new.get(n[0], n[0]), m[0]), line)
        return TOKEN.sub(one, line)

    return "\n".join(line_of(l) for l in text.split("\n"))


def main(root):
    new = table()
    for path in texts(root):
        with open(path, encoding="utf8") as f:
            old = f.read()
        text = renamed(old, new, path)
        if text != old:
            with open(path, "w", encoding="utf8") as f:
                f.write(text)


if __name__ == "__main__":
    main(sys.argv[1] if len(sys.argv) > 1 else ".")
