#!/usr/bin/env python3
"""The same translation with document 01's longer choice rules, as text for the solver.

usage: longer.py FILE ASP      a preference file and what `translate --asp` gives for it

There step 1's first rule stands for minimised atoms too, and step 2 is a constraint: not a rule's head
atoms, not N. of its body atoms. The other steps are kept as the text has them.
"""
import re
import sys

from to_clingo import RULE

DECLARATION = re.compile(r"\((min|vary|fix)((?: [^ ()]+)*)\)")


def holds(name):
    return f'holds("{name}")'


def n(name):
    return f'n("{name}")'


def parts(file):
    """The minimised atoms and the others that stand in some rule, and each rule's head and body."""
    minimised, others, rules = [], [], []
    for line in file.splitlines():
        declared = DECLARATION.fullmatch(line)
        if declared:
            (minimised if declared.group(1) == "min" else others).extend(declared.group(2).split())
        else:
            head, body, _ = RULE.fullmatch(line).groups()
            rules.append((head.split(), body.split()))
    used = {name for head, body in rules for name in head + body}
    return [a for a in minimised if a in used], [a for a in others if a in used], rules


def longer_rules(atoms, rules):
    for atom in atoms:
        yield f"{holds(atom)} :- not {n(atom)}."
        yield f"{n(atom)} :- not {holds(atom)}."
    for head, body in rules:
        condition = ", ".join(f"not {atom}" for atom in [*map(holds, head), *map(n, body)])
        yield f":- {condition or '0=0'}."


def text(file, asp):
    minimised, others, rules = parts(file)
    comment, *lines = asp.splitlines()
    choices = len(minimised) + 2 * len(others) + len(rules)
    longer = [comment, *longer_rules(minimised + others, rules), *lines[choices:]]
    return "".join(line + "\n" for line in longer)


def main():
    file, asp = sys.argv[1:]
    with open(file) as preference, open(asp) as delivered:
        sys.stdout.write(text(preference.read(), delivered.read()))


if __name__ == "__main__":
    main()
