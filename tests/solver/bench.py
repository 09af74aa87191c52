#!/usr/bin/env python3
"""Times the front's `solve` beside the solver alone on circuits, then the solver on the delivered texts
beside those with document 01's longer choice rules, and prints two tables.

usage: bench.py FRONT

In the first table the solver alone gets the ready text of `translate --asp`, as `solve` would hand it
over: once with its output thrown away and once with its output read through a pipe. In the second its
output is thrown away; `choices` and `conflicts` are the solver's own counts, and both texts have to give
the same states. Whole times by the clock, those of a row taken alternately, for each the best of at least
eleven turns, and the mean of a row's circuits. Other work on the machine moves the ratios by a fifth and
more, so run it on a quiet one.
"""
import json
import os
import subprocess
import sys
import tempfile
import time

import circuits
import longer

SIZES = [18, 22, 26, 28]
CLASSES = [1, 4]
SEEDS = [1, 2, 3, 4, 5]
FEWEST_TURNS = 11
SOLVER = ["clingo", "--verbose=0", "--warn=none", "0", "-"]
STATISTICS = ["clingo", "--outf=2", "--stats", "--warn=none", "0", "-"]
ANSWERS = (10, 20, 30)  # clingo's status where it has solved


def thrown_away(asp):
    with open(asp) as text:
        return subprocess.run(SOLVER, stdin=text, stdout=subprocess.DEVNULL).returncode in ANSWERS


def through_a_pipe(asp):
    with open(asp) as text:
        return subprocess.run(SOLVER, stdin=text, stdout=subprocess.PIPE).returncode in ANSWERS


def solve(front, path):
    return subprocess.run([front, "solve", path], stdout=subprocess.DEVNULL).returncode == 0


def seconds(call):
    start = time.perf_counter()
    done = call()
    taken = time.perf_counter() - start
    if not done:
        sys.exit("bench.py: a call failed")
    return taken


def output(command, path):
    return subprocess.run([*command, path], stdout=subprocess.PIPE, check=True).stdout.decode()


def best_times(calls):
    turns = []
    while len(turns) < FEWEST_TURNS or sum(map(sum, turns)) < 1:
        turns.append([seconds(call) for call in calls])
    return [min(times) for times in zip(*turns)]


def write(path, content):
    with open(path, "w") as text:
        text.write(content)


class Files:
    """A circuit's preference file, its delivered text for the solver and the longer one."""

    def __init__(self, front, work, circuit, k):
        self.path, self.asp, self.longer = (
            os.path.join(work, name) for name in ("circuit.pref", "circuit.lp", "longer.lp")
        )
        file = circuits.text(circuit, k)
        write(self.path, file)
        delivered = output([front, "translate", "--asp"], self.path)
        write(self.asp, delivered)
        write(self.longer, longer.text(file, delivered))


def measure_solve(front, work, circuit, k):
    """How many states, and the best time of each of the three."""
    files = Files(front, work, circuit, k)
    listing = output([front, "solve"], files.path)
    if listing != circuits.listing(circuit, k):
        sys.exit("bench.py: solve does not list the preferred states")
    calls = [
        lambda: thrown_away(files.asp),
        lambda: through_a_pipe(files.asp),
        lambda: solve(front, files.path),
    ]
    return [listing.count("(state"), *best_times(calls)]


def solved(asp):
    """The states that the solver finds, and how many choices and conflicts it took."""
    with open(asp) as text:
        answer = json.loads(subprocess.run(STATISTICS, stdin=text, stdout=subprocess.PIPE).stdout)
    models = answer["Call"][0].get("Witnesses", [])
    core = answer["Stats"]["Core"]
    return sorted(sorted(model.get("Value", [])) for model in models), core["Choices"], core["Conflicts"]


def measure_texts(front, work, circuit, k):
    """For the longer text and the delivered one: best time, choices, conflicts."""
    files = Files(front, work, circuit, k)
    states, *longer_counts = solved(files.longer)
    same_states, *counts = solved(files.asp)
    if states != same_states:
        sys.exit("bench.py: the two texts do not give the same states")
    times = best_times([lambda: thrown_away(files.longer), lambda: thrown_away(files.asp)])
    return [times[0], *longer_counts, times[1], *counts]


def means(measure, front, work, n, k):
    """The means of a row's circuits."""
    rows = [measure(front, work, circuits.draw(n, seed), k) for seed in SEEDS]
    return [sum(column) / len(SEEDS) for column in zip(*rows)]


def solve_row(front, work, n, k):
    states, *times = means(measure_solve, front, work, n, k)
    alone, piped, solve_time = (1000 * mean for mean in times)
    print(
        f"circuits N={n} k={k}  {states * len(SEEDS):>4.0f} states  solver {alone:>6.1f} ms"
        f"  solver | pipe {piped:>6.1f} ms  solve {solve_time:>6.1f} ms"
        f"  solve/solver {solve_time / alone:.2f}  solve/(solver | pipe) {solve_time / piped:.2f}",
        flush=True,
    )


def texts_row(front, work, n, k):
    old, old_choices, old_conflicts, new, choices, conflicts = means(measure_texts, front, work, n, k)
    print(
        f"circuits N={n} k={k}"
        f"  longer {1000 * old:>6.1f} ms, {old_choices:>6.0f} choices, {old_conflicts:>5.0f} conflicts"
        f"  delivered {1000 * new:>6.1f} ms, {choices:>6.0f} choices, {conflicts:>5.0f} conflicts"
        f"  longer/delivered {old / new:.2f}",
        flush=True,
    )


def table(row, front, work):
    for n in SIZES:
        for k in CLASSES:
            row(front, work, n, k)


def main():
    (front,) = sys.argv[1:]
    print(f"whole times, the mean of {len(SEEDS)} circuits, each the best of several turns")
    with tempfile.TemporaryDirectory() as work:
        table(solve_row, front, work)
        print("\nthe solver alone, on the text with document 01's longer choice rules and on the delivered one")
        table(texts_row, front, work)


if __name__ == "__main__":
    main()
