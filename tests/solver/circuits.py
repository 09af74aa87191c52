#!/usr/bin/env python3
"""Faulty circuits, after document 001, section 5.

usage: circuits.py N K SEED            a preference file
       circuits.py --states N K SEED   its preferred states, as `states` prints them

A random tree of N nodes: its leaves are inputs with known values, its inner nodes gates, node 1 gives
the output, and what was read is not that value but the other. `ab` atoms (this gate is at fault) are
minimised in K classes, `high` atoms (this node's value) vary. Each node has an `ab` atom; an input's stands
in no rule, so it does not belong to the program.

The states are worked out here from the circuit alone. A gate at fault gives the wrong value, so the set
of faults fixes every value. Whatever depends on the set of faults is a table with one bit for each set,
and a table is one Python integer.
"""
import random
import sys
from itertools import product

MOST_GATES = 20
OPERATIONS = {
    "and": all,
    "or": any,
    "xor": lambda values: sum(values) % 2 == 1,
    "nand": lambda values: not all(values),
    "nor": lambda values: not any(values),
}


class Circuit:
    def __init__(self, n, inputs_of, operation, known):
        self.n = n
        self.inputs_of = inputs_of  # a node's children; none: it is an input of the circuit
        self.operation = operation  # of each gate
        self.known = known  # the value of each input of the circuit
        self.gates = [node for node in range(1, n + 1) if inputs_of[node]]
        self.read = not self.values(set())[1]

    def output(self, gate, values):
        """What the gate gives for the values of its inputs."""
        if len(values) == 1:
            return not values[0]
        return OPERATIONS[self.operation[gate]](values)

    def values(self, faults):
        """Each node's value. A node's number is below those of its inputs."""
        value = dict(self.known)
        for gate in reversed(self.gates):
            value[gate] = self.output(gate, [value[i] for i in self.inputs_of[gate]]) != (gate in faults)
        return value


def draw(n, seed):
    """The circuit with this seed. Only `random()` is the same in every version of Python."""
    source = random.Random(f"{n} {seed}")

    def below(bound):
        return int(source.random() * bound)

    while True:
        inputs_of = {1: []}
        for node in range(2, n + 1):
            open_nodes = [i for i in inputs_of if len(inputs_of[i]) < 3]
            inputs_of[open_nodes[below(len(open_nodes))]].append(node)
            inputs_of[node] = []
        gates = [i for i in inputs_of if inputs_of[i]]
        if len(gates) <= MOST_GATES:
            break
    names = sorted(OPERATIONS)
    operation = {gate: names[below(len(names))] for gate in gates if len(inputs_of[gate]) > 1}
    known = {i: below(2) == 1 for i in inputs_of if not inputs_of[i]}
    return Circuit(n, inputs_of, operation, known)


def classes(n, k):
    """Class i has the numbers from (i-1)*floor(n/k)+1 to i*floor(n/k), the last one what is left over too."""
    size = n // k
    return [range(i * size + 1, (n if i == k - 1 else (i + 1) * size) + 1) for i in range(k)]


def form(word, names):
    return "(" + " ".join([word, *names]) + ")"


def rule(head, body):
    return form("rule", [form("head", head), form("body", body), "(not)"])


def gate_rules(circuit, gate):
    """One rule for each assignment of the inputs: there the gate gives its output, or is at fault."""
    for values in product([False, True], repeat=len(circuit.inputs_of[gate])):
        head, body = [], []
        for node, value in zip(circuit.inputs_of[gate], values):
            (body if value else head).append(f"high{node}")
        (head if circuit.output(gate, values) else body).append(f"high{gate}")
        yield rule(head + [f"ab{gate}"], body)


def value_rule(node, value):
    return rule([f"high{node}"], []) if value else rule([], [f"high{node}"])


def text(circuit, k):
    lines = [form("min", [f"ab{i}" for i in part]) for part in classes(circuit.n, k)]
    lines += [form("vary", [f"high{i}" for i in range(1, circuit.n + 1)]), form("fix", [])]
    for gate in circuit.gates:
        lines += gate_rules(circuit, gate)
    lines += [value_rule(node, value) for node, value in sorted(circuit.known.items())]
    lines.append(value_rule(1, circuit.read))
    return "".join(line + "\n" for line in lines)


class Tables:
    """Tables over the sets of `count` things: bit s of a table says something of set s."""

    def __init__(self, count):
        self.all = (1 << (1 << count)) - 1
        self.lacking = [self.lacking_one(thing, count) for thing in range(count)]

    @staticmethod
    def lacking_one(thing, count):
        """The sets that lack the thing."""
        table = (1 << (1 << thing)) - 1
        for later in range(thing + 1, count):
            table |= table << (1 << later)
        return table

    def with_it_added(self, table, thing):
        """The sets that have the thing and are in the table without it."""
        return (table & self.lacking[thing]) << (1 << thing)

    def with_it_removed(self, table, thing):
        """The sets that lack the thing and are in the table with it."""
        return (table >> (1 << thing)) & self.lacking[thing]


def explaining(circuit, tables):
    """The sets of faults with which the output is as it was read. Gate number i of the list is thing i."""
    value = {node: tables.all if known else 0 for node, known in circuit.known.items()}
    for thing, gate in reversed(list(enumerate(circuit.gates))):
        inputs = circuit.inputs_of[gate]
        given = 0
        for values in product([False, True], repeat=len(inputs)):
            if circuit.output(gate, values):
                here = tables.all
                for node, wanted in zip(inputs, values):
                    here &= value[node] if wanted else tables.all ^ value[node]
                given |= here
        value[gate] = given ^ tables.all ^ tables.lacking[thing]
    return value[1] if circuit.read else tables.all ^ value[1]


def unbeaten(circuit, k):
    """The sets of faults that explain what was read and that no such set beats, as sets of gates.

    A set is beaten in a class when some other agrees with it on the classes before and has a proper
    subset of its faults there, whatever it has in the classes after.
    """
    tables = Tables(len(circuit.gates))
    explained = explaining(circuit, tables)
    beaten = 0
    things = [[circuit.gates.index(i) for i in part if i in circuit.gates] for part in classes(circuit.n, k)]
    for at, here in enumerate(things):
        fewer = explained
        for thing in sum(things[at + 1 :], []):
            fewer |= tables.with_it_added(fewer, thing) | tables.with_it_removed(fewer, thing)
        for thing in here:
            fewer |= tables.with_it_added(fewer, thing)
        for thing in here:
            beaten |= tables.with_it_added(fewer, thing)
    left = explained & ~beaten
    for number, bit in enumerate(reversed(f"{left:b}")):
        if bit == "1":
            yield {gate for thing, gate in enumerate(circuit.gates) if number >> thing & 1}


def listing(circuit, k):
    """What is to be listed: of two states, first the one lacking the first declared atom on which they differ."""
    states = []
    for faults in unbeaten(circuit, k):
        high = {node for node, value in circuit.values(faults).items() if value}
        nodes = range(1, circuit.n + 1)
        members = [i in faults for i in nodes] + [i in high for i in nodes]
        names = [f"ab{i}" for i in sorted(faults)] + [f"high{i}" for i in sorted(high)]
        states.append((members, form("state", names)))
    lines = [line for _, line in sorted(states)] + [form("total", [str(len(states))])]
    return "".join(line + "\n" for line in lines)


def main():
    words = sys.argv[1:]
    show = text
    if words and words[0] == "--states":
        show = listing
        words = words[1:]
    try:
        n, k, seed = map(int, words)
        if not 1 <= k <= min(n, 16) or n < 2:
            raise ValueError
    except ValueError:
        sys.exit("usage: circuits.py [--states] N K SEED      (N at least 2, K from 1 to 16 and at most N)")
    sys.stdout.write(show(draw(n, seed), k))


if __name__ == "__main__":
    main()
