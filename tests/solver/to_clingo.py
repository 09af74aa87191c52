#!/usr/bin/env python3
"""Converts a plain program (standard input) to clingo's syntax (standard output).

The atom with number i becomes x(i), so that no name of ours can mean something to the solver.
"""
import re
import sys

RULE = re.compile(r"\(rule \(head((?: [^ ()]+)*)\) \(body((?: [^ ()]+)*)\) \(not((?: [^ ()]+)*)\)\)")
ATOMS = re.compile(r"\(atoms((?: [^ ()]+)*)\)")


def convert(text):
    first, *rest = text.splitlines()
    declared = ATOMS.fullmatch(first)
    if not declared:
        raise ValueError("no plain program: " + first)
    number = {name: i for i, name in enumerate(declared.group(1).split())}
    lines = []
    for line in rest:
        rule = RULE.fullmatch(line)
        if not rule:
            raise ValueError("no rule: " + line)
        head, body, negated = ([f"x({number[a]})" for a in part.split()] for part in rule.groups())
        condition = ", ".join(body + ["not " + a for a in negated])
        lines.append(" ; ".join(head) + (" :- " + condition if condition or not head else "") + ".")
    return "\n".join(lines) + "\n"


if __name__ == "__main__":
    sys.stdout.write(convert(sys.stdin.read()))
