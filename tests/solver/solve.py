#!/usr/bin/env python3
"""Holds the front's `solve`, byte for byte, to a listing that needs no solver.

usage: solve.py FRONT STATES FILE..      to what STATES prints, a command that reads from standard input
       solve.py FRONT --circuits         on circuits, to circuits.py's own listing
"""
import os
import shlex
import subprocess
import sys
import tempfile

import circuits

SIZES = [18, 22, 26, 28, 45]  # the last has 65 atoms in its rules: past 60, and past a word's bits
CLASSES = [1, 4]
SEEDS = [1, 2, 3]


def solve(front, path):
    ended = subprocess.run([front, "solve", path], capture_output=True)
    return f"(status {ended.returncode}) {ended.stderr.decode()}" if ended.returncode else ended.stdout.decode()


def listed(states, path):
    with open(path, "rb") as text:
        return subprocess.run(shlex.split(states), stdin=text, capture_output=True, check=True).stdout.decode()


def file_cases(states, paths):
    for path in paths:
        yield path, path, listed(states, path)


def circuit_cases(work):
    path = os.path.join(work, "circuit.pref")
    for n in SIZES:
        for seed in SEEDS:
            circuit = circuits.draw(n, seed)
            for k in CLASSES:
                with open(path, "w") as text:
                    text.write(circuits.text(circuit, k))
                yield f"circuits.py {n} {k} {seed}", path, circuits.listing(circuit, k)


def compare(front, what, cases):
    count = states = differences = 0
    for name, path, expected in cases:
        given = solve(front, path)
        count += 1
        states += expected.count("(state")
        if given != expected:
            differences += 1
            print(f"{name}: solve gives\n{given}instead of\n{expected}", end="")
    print(f"solve: {count} {what}, {states} states, {differences} differences")
    return 1 if differences or not count else 0


def main():
    front, states, *paths = sys.argv[1:]
    if states != "--circuits":
        return compare(front, "files", file_cases(states, paths))
    with tempfile.TemporaryDirectory() as work:
        return compare(front, "circuits", circuit_cases(work))


if __name__ == "__main__":
    sys.exit(main())
