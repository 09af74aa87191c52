#!/usr/bin/env python3
"""Compares, for each preference file, the stable models of its delivered translation, as clingo
finds them, cut down to the file's atoms, with the listed states and their order.

usage: run.py TRANSLATE STATES FILE..

TRANSLATE and STATES are commands that read a preference file from standard input.
"""
import json
import re
import shlex
import subprocess
import sys

from to_clingo import convert

LIST = re.compile(r"\( *(?:head|body|not)((?: [^()]*)?)\)")  # a list of a rule, however it is spaced


def output(command, path):
    with open(path, "rb") as text:
        return subprocess.run(shlex.split(command), stdin=text, capture_output=True, check=True).stdout.decode()


CONNECTIVES = ("not", "and", "or")


def atoms(path):
    """The declared atoms that stand in some rule or condition, in declared order, and before the fixed ones those that
    the conditions make: only these belong to the program."""
    declared, fixed, used, made = [], [], set(), 0
    with open(path, "rb") as text:
        for line in text.read().decode("latin-1").split("\n"):
            form = line.partition(";")[0]
            word, *rest = re.findall(r"[^ ()]+", form) or [None]
            if word == "rule":
                used.update(name for names in LIST.findall(form) for name in names.split())
            elif word == "when":
                *between, _, then = rest
                made += sum(name in CONNECTIVES for name in between)
                used.update(name for name in between if name not in CONNECTIVES)
                used.add(then)
            elif word == "fix":
                fixed = rest
            else:
                declared += rest
    made = [f"T.{i + 1}" for i in range(made)]
    return [name for name in declared if name in used] + made + [name for name in fixed if name in used]


def stable_models(program):
    """Each stable model as a set of atom numbers; every model once for each time it is found."""
    command = ["clingo", "--outf=2", "--warn=none", "0"]
    solved = subprocess.run(command, input=program.encode(), capture_output=True)
    answer = json.loads(solved.stdout)
    if answer["Result"] not in ("SATISFIABLE", "UNSATISFIABLE"):
        raise ValueError("clingo: " + answer["Result"] + solved.stderr.decode())
    models = answer["Call"][0].get("Witnesses", [])
    return [{int(re.fullmatch(r"x\((\d+)\)", atom).group(1)) for atom in model.get("Value", [])} for model in models]


def listed_states(listing):
    *states, total = listing.splitlines()
    if total != f"(total {len(states)})":
        raise ValueError("no complete listing: " + total)
    return [tuple(re.fullmatch(r"\(state((?: [^ ()]+)*)\)", line).group(1).split()) for line in states]


def difference(translate, states, path):
    names = atoms(path)
    listed = listed_states(output(states, path))
    models = stable_models(convert(output(translate, path)))
    # Of two states the first lacks the first declared atom on which they differ.
    members = sorted([atom in model for atom in range(len(names))] for model in models)
    cut = [tuple(name for name, holds in zip(names, state) if holds) for state in members]
    if cut != listed:
        return len(listed), f"{path}: listed {listed}, clingo {cut}"
    return len(listed), None


def main():
    translate, states, *paths = sys.argv[1:]
    found = []
    total = 0
    for path in paths:
        count, fault = difference(translate, states, path)
        total += count
        if fault:
            found.append(fault)
    for fault in found:
        print(fault)
    print(f"{len(paths)} files, {total} states, {len(found)} differences")
    return 1 if found or not paths else 0


if __name__ == "__main__":
    sys.exit(main())
