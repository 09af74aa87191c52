#!/usr/bin/env python3
"""Holds clause files to the solvers that read them: drawn ones, and what the solvers' own tools write.

usage: clauses.py FRONT COUNT SEED

Of each file that is strict and within the limits, the rules of its preference file are the clauses, and its
states the minimal models that clingo's clasp finds (of larger files these are not listed). There is one exactly
when each other solver on PATH (minisat, picosat, cadical, cryptominisat5) finds a model, and that model breaks
no rule. Other files have to be refused.
"""
import itertools
import json
import os
import random
import re
import shutil
import subprocess
import sys
import tempfile

from to_clingo import RULE

LISTED = 14  # the most atoms of which all states are listed
CLASP = ["clingo", "--mode=clasp", "--outf=2"]
MINIMAL = [*CLASP, "--heuristic=Domain", "--enum-mod=domRec", "--dom-mod=5,16", "0"]

SOLVERS = {
    "minisat": ["minisat", "-verb=0"],
    "picosat": ["picosat"],
    "cadical": ["cadical", "-q"],
    "cryptominisat5": ["cryptominisat5", "--verb", "0"],
}

# What writes a clause file again: preprocessed, as it was, or cut to a smallest unsatisfiable part.
TOOLS = {
    "minisat": lambda given, made: ["minisat", "-verb=0", f"-dimacs={made}", given],
    "picosat": lambda given, made: ["picosat", "-p", "-o", made, given],
    "picomus": lambda given, made: ["picomus", given, made],
    "cadical": lambda given, made: ["cadical", "-q", "-o", made, given],
}

NUMBER = r"(?:0|[1-9][0-9]*)"


# ---- clause files


def strict(text):
    """The header's atoms and the clauses, of a text that is strict and within the limits; else none."""
    if not text.endswith("\n") or len(text) > 917504:
        return None
    lines = [line.strip(" ") for line in text.split("\n")[:-1] if not line.startswith("c")]
    lines = [line for line in lines if line]
    header = re.fullmatch(f"p +cnf +({NUMBER}) +({NUMBER})", lines[0]) if lines else None
    if not header:
        return None
    atoms, count = map(int, header.groups())
    items = [item for line in lines[1:] for item in line.split(" ") if item]
    if not all(re.fullmatch(r"0|-?[1-9][0-9]*", item) for item in items):
        return None
    clauses = [[]]
    for item in map(int, items):
        if item:
            clauses[-1].append(item)
        else:
            clauses.append([])
    unfinished = clauses.pop()
    occurrences = sum(len(set(clause)) for clause in clauses)
    beyond = any(abs(literal) > atoms for clause in clauses for literal in clause)
    if unfinished or len(clauses) != count or beyond or atoms > 256 or count > 1024 or occurrences > 8192:
        return None
    return atoms, clauses


def store(path, text):
    with open(path, "w", newline="") as file:
        file.write(text)


def any_clauses(source):
    atoms = source.randint(1, 10)
    literal = lambda: source.choice([1, -1]) * source.randint(1, atoms)
    return atoms, [[literal() for _ in range(source.randint(1, 4))] for _ in range(source.randint(0, 4 * atoms))]


def three_literals(source, atoms):
    """Near the ratio at which half of such formulas have a model."""
    chosen = lambda: [source.choice([1, -1]) * atom for atom in source.sample(range(1, atoms + 1), 3)]
    return atoms, [chosen() for _ in range(int(4.26 * atoms))]


def pigeons(count, holes):
    at = lambda pigeon, hole: pigeon * holes + hole + 1
    clauses = [[at(pigeon, hole) for hole in range(holes)] for pigeon in range(count)]
    for hole in range(holes):
        clauses += [[-at(one, hole), -at(other, hole)] for one, other in itertools.combinations(range(count), 2)]
    return count * holes, clauses


def parity(source, atoms):
    """Sums of neighbours, and all of them together: whether there is a model is a matter of chance."""
    clauses = []
    for first in range(1, atoms - 1):
        odd = source.randint(0, 1)
        for signs in itertools.product([1, -1], repeat=3):
            if signs.count(-1) % 2 != odd:
                clauses.append([sign * (first + place) for place, sign in enumerate(signs)])
    return atoms, clauses


def colouring(source, nodes, colours):
    at = lambda node, colour: node * colours + colour + 1
    clauses = [[at(node, colour) for colour in range(colours)] for node in range(nodes)]
    for one, other in itertools.combinations(range(nodes), 2):
        if source.random() < 0.5:
            clauses += [[-at(one, colour), -at(other, colour)] for colour in range(colours)]
    return nodes * colours, clauses


def draw(source, turn):
    kinds = [
        lambda: any_clauses(source),
        lambda: any_clauses(source),
        lambda: three_literals(source, source.randint(5, 12)),
        lambda: pigeons(*source.choice([(2, 2), (3, 2), (3, 3), (4, 3)])),
        lambda: parity(source, source.randint(3, 12)),
        lambda: colouring(source, source.randint(2, 5), 2),
        lambda: three_literals(source, source.randint(20, 70)),
        lambda: colouring(source, 12, 3),
    ]
    return kinds[turn % len(kinds)]()


def written(source, atoms, clauses):
    """A strict text, with comments, spaces and lines in any way."""
    atoms += source.choice([0, 0, 1, 5])
    text = f"{source.choice(['', 'c drawn' + chr(10)])}p cnf {atoms} {len(clauses)}\n"
    wide = source.random() < 0.3
    for clause in clauses:
        items = [str(literal) for literal in clause] + ["0"]
        for item in items:
            text += item
            text += source.choice([" ", "   ", "\n", " \n  ", "\nc within\n"]) if wide else " "
        text = text.rstrip(" ") + "\n"
    return text


def loosened(source, text):
    """Spellings that some files have and that are not strict: `%` and 0 at the end, tabs, other line ends, no
    last line end, a count of clauses that is not theirs."""
    ways = [
        lambda: text + "%\n0\n\n",
        lambda: text.replace(" 0\n", "\t0\n"),
        lambda: text.replace("\n", "\r\n"),
        lambda: text[:-1],
        lambda: re.sub(r"(p cnf [0-9]+) ([0-9]+)", lambda header: f"{header[1]} {int(header[2]) + 1}", text, count=1),
    ]
    return source.choice(ways)()


# ---- the solvers


def by_clasp(command, atoms, clauses):
    """Its answer to the clauses, one a line: it takes no comment within one."""
    lines = [" ".join(map(str, [*clause, 0])) for clause in clauses]
    text = "\n".join([f"p cnf {atoms} {len(clauses)}", *lines, ""])
    return json.loads(subprocess.run(command, input=text.encode(), capture_output=True).stdout)


def minimal_models(formula):
    models = by_clasp(MINIMAL, *formula)["Call"][0].get("Witnesses", [])
    return {frozenset(literal for literal in model["Value"] if literal > 0) for model in models}


def is_satisfiable(formula):
    return {"SATISFIABLE": True, "UNSATISFIABLE": False}[by_clasp(CLASP, *formula)["Result"]]


def printed(ended):
    lines = ended.stdout.decode().splitlines()
    return [item for line in lines if line.startswith("v ") for item in line.split()[1:]]


def stored(path):
    with open(path) as text:
        return text.read().split()[1:]


def model(name, path, work):
    """Whether the solver takes the file and finds a model, and that model's atoms."""
    given = os.path.join(work, "given")
    command = [*SOLVERS[name], path, *([given] if name == "minisat" else [])]
    ended = subprocess.run(command, capture_output=True)
    if ended.returncode != 10:
        return {20: False}.get(ended.returncode), set()
    items = stored(given) if name == "minisat" else printed(ended)
    return True, {int(item) for item in items if int(item) > 0}


# ---- the front


class Front:
    def __init__(self, program):
        self.program = program

    def run(self, command, path, *more):
        ended = subprocess.run([self.program, command, path, *more], capture_output=True)
        return ended.returncode, ended.stdout.decode()

    def listing(self, command, path, *more):
        status, out = self.run(command, path, *more)
        if status:
            raise ValueError(f"{command} {path} ended with status {status}: {out}")
        *states, _ = out.splitlines()
        return [{int(name[1:]) for name in line[1:-1].split()[1:]} for line in states]


def numbers(names):
    return [int(name[1:]) for name in names.split()]


def parts(preference):
    """The numbers of the atoms that remain, and each rule as a set of literals."""
    declared, vary, fix, *rules = preference.splitlines()
    remaining = set(numbers(re.fullmatch(r"\(min((?: v[0-9]+)*)\)", declared).group(1)))
    if (vary, fix) != ("(vary)", "(fix)"):
        raise ValueError(f"{vary} {fix}")
    clauses = []
    for line in rules:
        head, body, _ = RULE.fullmatch(line).groups()
        clauses.append({*numbers(head), *(-atom for atom in numbers(body))})
    return remaining, clauses


class Comparison:
    def __init__(self, front, work):
        self.front, self.work = front, work
        self.solvers = [name for name in SOLVERS if shutil.which(name)]
        self.taken, self.refused, self.untaken = {}, {}, {}
        self.states, self.satisfiable = 0, 0
        self.differences = []

    def wrong(self, path, words):
        with open(path) as text:
            self.differences.append(f"{words}\n{text.read()[:2000]}")

    def file(self, maker, path):
        with open(path, newline="") as text:
            formula = strict(text.read())
        status, out = self.front.run("clauses", path)
        if (status == 0) != (formula is not None):
            self.wrong(path, f"{maker}: the front ended with status {status}: {out[:200]}")
        elif formula is None:
            self.refused[maker] = self.refused.get(maker, 0) + 1
        else:
            self.taken[maker] = self.taken.get(maker, 0) + 1
            preference = os.path.join(self.work, "clauses.pref")
            store(preference, out)
            self.models(maker, path, preference, formula)

    def models(self, maker, path, preference, formula):
        with open(preference) as text:
            remaining, rules = parts(text.read())
        if rules != [set(clause) for clause in formula[1]]:
            self.wrong(path, f"{maker}: the rules are {rules}")
        if len(remaining) <= LISTED:
            states = self.front.listing("states", preference)
            self.states += len(states)
            minimal = minimal_models(formula)
            if {frozenset(state) for state in states} != minimal or len(states) != len(minimal):
                self.wrong(path, f"{maker}: states {states}, minimal models {minimal}")
            satisfiable = bool(states)
        else:
            satisfiable = is_satisfiable(formula)
        self.satisfiable += satisfiable
        for name in self.solvers:
            found, given = model(name, path, self.work)
            if found is None:
                self.untaken[name] = self.untaken.get(name, 0) + 1
            elif found != satisfiable:
                self.wrong(path, f"{maker}: {name} says {found}")
            elif found and not all(any((literal > 0) == (abs(literal) in given) for literal in rule) for rule in rules):
                self.wrong(path, f"{maker}: {name} gives {given}, which breaks a rule")
            elif found and len(remaining) <= 60:
                atoms = [f"v{atom}" for atom in sorted(given & remaining)]
                status, verdict = self.front.run("preferred", preference, *atoms, "--budget", "100000")
                if status not in (0, 3) or verdict.startswith("no model"):
                    self.wrong(path, f"{maker}: {name} gives {atoms}: {verdict}")

    def tools(self, path):
        for name in TOOLS:
            made = os.path.join(self.work, "made.cnf")
            if os.path.exists(made):
                os.remove(made)
            if shutil.which(name):
                subprocess.run(TOOLS[name](path, made), capture_output=True)
                if os.path.exists(made):
                    self.file(name, made)

    def report(self):
        for difference in self.differences:
            print(difference)
        makers = sorted({*self.taken, *self.refused})
        for maker in makers:
            taken, refused = self.taken.get(maker, 0), self.refused.get(maker, 0)
            print(f"clauses: {maker}: {taken} taken, {refused} refused as not strict or past a limit")
        for name, count in sorted(self.untaken.items()):
            print(f"clauses: {count} of the files taken are none that {name} takes")
        files = sum(self.taken.values())
        print(
            f"clauses: {files} files, {self.satisfiable} satisfiable, {self.states} minimal models listed,"
            f" by clingo {' '.join(self.solvers)}; {len(self.differences)} differences"
        )
        return 1 if self.differences or not files else 0


def main():
    program, count, seed = sys.argv[1:]
    source = random.Random(int(seed))
    with tempfile.TemporaryDirectory() as work:
        comparison = Comparison(Front(program), work)
        path = os.path.join(work, "drawn.cnf")
        for turn in range(int(count)):
            text = written(source, *draw(source, turn))
            store(path, text)
            comparison.file("drawn", path)
            comparison.tools(path)
            store(path, loosened(source, text))
            comparison.file("loosened", path)
        return comparison.report()


if __name__ == "__main__":
    sys.exit(main())
