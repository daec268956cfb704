#!/usr/bin/env python3
"""run.py [SEED]: makes affine programs, has pungi_fixpoint solve them over spans and over constants, and computes the
least spans itself, over fractions.

It makes five random programs for each width from 2 to 64, and three of which the answers are known. Each place and exit
class must have the dimension that is computed here; a duty must fail, or an entry be over 2^31, exactly where this comes
here, from the same place. Over constants no program may be safe in which a duty fails here.

A program is listed as numbers: the widths of its places, those of its exit classes, and its entries, each with their
count in front; the count of its edges; and of each edge its source, 0 or 1 for a place or an exit class with its number,
its guard, its action and its duties. Equations are listed with their count in front, a map as 0, the count of its rows
and of each row the count of its terms with their terms, and a coordinate that gets any number as 1 and the coordinate.

The program is built without a proof of it (`rt try`), from the crates as they stand."""
import os
import random
import shutil
import subprocess
import sys
import tempfile
from collections import Counter
from fractions import Fraction
from math import lcm

HERE = os.path.dirname(os.path.abspath(__file__))
TOP = os.path.dirname(os.path.dirname(HERE))
CRATES = ["pungi_base", "pungi_links", "pungi_domain", "pungi_affine", "pungi_fixpoint"]
LIMIT = 2**31


class Large(Exception):
    """An entry of a scaled row is too large."""


class Span:
    """A span by its rows in reduced echelon form: a row for each pivot."""

    def __init__(self, width):
        self.width, self.rows = width, {}

    def reduced(self, vector):
        vector = list(vector)
        for pivot, row in self.rows.items():
            if vector[pivot]:
                factor = vector[pivot]
                for i, entry in row.items():
                    vector[i] -= factor * entry
        return vector

    def add(self, vector):
        """Takes a vector in, and returns whether it was no member."""
        vector = self.reduced(vector)
        pivot = next((i for i, entry in enumerate(vector) if entry), None)
        if pivot is None:
            return False
        first = vector[pivot]
        new = {i: entry / first for i, entry in enumerate(vector) if entry}
        for row in self.rows.values():
            factor = row.get(pivot)
            if factor:
                for i, entry in new.items():
                    entry = row.get(i, 0) - factor * entry
                    if entry:
                        row[i] = entry
                    else:
                        row.pop(i, None)
        self.rows[pivot] = new
        return True

    def vectors(self):
        return [[Fraction(row.get(i, 0)) for i in range(self.width)] for _, row in sorted(self.rows.items())]

    def tested(self):
        """The span, unless an entry of its scaled rows is too large."""
        entries = [Fraction(entry) for row in self.rows.values() for entry in row.values()]
        scale = lcm(*(entry.denominator for entry in entries))
        if any(abs(entry * scale) > LIMIT for entry in entries):
            raise Large
        return self

    def grow(self, vectors):
        """Takes vectors in, one after the other, and returns whether that changed anything."""
        changed = False
        for vector in vectors:
            alone = Span(self.width)
            alone.add(vector)
            alone.tested()
            changed = self.add(vector) or changed
            self.tested()
        return changed

    def met(self, equation):
        """The span of the vectors that meet an equation."""
        vectors = self.vectors()
        values = [sum(c * v for c, v in zip(equation, vector) if c and v) for vector in vectors]
        at = next((i for i, value in enumerate(values) if value), None)
        result = Span(self.width)
        for i, vector in enumerate(vectors):
            if i != at:
                if values[i]:
                    factor = values[i] / values[at]
                    vector = [a - factor * b for a, b in zip(vector, vectors[at])]
                result.add(vector)
        return result.tested()


def met_all(span, equations):
    for equation in equations:
        span = span.met(equation)
    return span


def sent(span, edge):
    kind, what = edge["action"]
    if kind == 1:
        result = Span(span.width)
        result.rows = {pivot: dict(row) for pivot, row in span.rows.items()}
        result.grow([[Fraction(i == what) for i in range(span.width)]])
        return result
    result = Span(len(what))
    result.grow([sum((factor * vector[source] for source, factor in row), Fraction(0)) for row in what]
                for vector in span.vectors())
    return result


def solved(program):
    """What the program should print over spans, by the same order of edges."""
    at = [Span(width) for width in program["widths"]]
    exits = [Span(width) for width in program["exits"]]
    for place in program["entries"]:
        at[place].grow([Fraction(i == j) for j in range(at[place].width)] for i in range(at[place].width))
    pending = list(range(len(at)))
    while pending:
        place = pending.pop(0)
        for edge in program["edges"]:
            if edge["from"] != place:
                continue
            kind, number = edge["to"]
            try:
                changed = (at, exits)[kind][number].grow(sent(met_all(at[place], edge["guard"]), edge).vectors())
            except Large:
                return f"range {place}"
            if changed and kind == 0 and number not in pending:
                pending.append(number)
    # The duties of edges to places are looked at first, then those of edges to exit classes.
    for edge in sorted(program["edges"], key=lambda it: it["to"][0]):
        met = met_all(at[edge["from"]], edge["guard"])
        if any(len(met.met(duty).rows) != len(met.rows) for duty in edge["duties"]):
            return f"not safe {edge['from']}"
    return " ".join(["safe", *(str(len(span.rows)) for span in at + exits)])


def listed(program):
    numbers = []

    def with_count(items):
        numbers.append(len(items))
        numbers.extend(items)

    def equations(items):
        numbers.append(len(items))
        for item in items:
            numbers.extend(item)

    with_count(program["widths"])
    with_count(program["exits"])
    with_count(program["entries"])
    numbers.append(len(program["edges"]))
    for edge in program["edges"]:
        numbers.extend([edge["from"], *edge["to"]])
        equations(edge["guard"])
        kind, what = edge["action"]
        numbers.append(kind)
        if kind == 1:
            numbers.append(what)
        else:
            numbers.append(len(what))
            for row in what:
                numbers.append(len(row))
                for source, factor in row:
                    numbers.extend([source, factor])
        equations(edge["duties"])
    return " ".join(map(str, numbers))


def edge(source, to, action, guard=(), duties=()):
    return {"from": source, "to": to, "guard": list(guard), "action": action, "duties": list(duties)}


def moves(width, **changes):
    """The map that keeps each coordinate but those that are named, as c1=[(0, 1)]."""
    return 0, [changes.get(f"c{i}", [(i, 1)]) for i in range(width)]


def known():
    """Loops that count: up, and down again by the same number of turns; with two objects and a second counter; and one that
    counts up alone. The coordinates are the constant, the numbers, the parameter and the balances."""
    up = {"widths": [2, 4, 4], "exits": [3], "entries": [0], "edges": [
        edge(0, (0, 1), (0, [[(0, 1)], [], [(1, 1)], []])),
        edge(1, (0, 1), moves(4, c1=[(1, 1), (0, 1)], c3=[(3, 1), (0, 1)])),
        edge(1, (0, 2), moves(4, c1=[]), guard=[[0, 1, -1, 0]]),
        edge(2, (0, 2), moves(4, c1=[(1, 1), (0, 1)], c3=[(3, 1), (0, -1)])),
        edge(2, (1, 0), (0, [[(0, 1)], [(2, 1)], [(3, 1)]]), guard=[[0, 1, -1, 0]], duties=[[0, 0, 0, 1]])]}
    two = {"widths": [2, 6, 6], "exits": [4], "entries": [0], "edges": [
        edge(0, (0, 1), (0, [[(0, 1)], [], [], [(1, 1)], [], []])),
        edge(1, (0, 1), moves(6, **{c: [(int(c[1]), 1), (0, 1)] for c in ("c1", "c2", "c4", "c5")})),
        edge(1, (0, 2), moves(6, c1=[]), guard=[[0, 1, 0, -1, 0, 0]]),
        edge(2, (0, 2), moves(6, c1=[(1, 1), (0, 1)], c4=[(4, 1), (0, -1)], c5=[(5, 1), (0, -1)])),
        edge(2, (1, 0), (0, [[(0, 1)], [(3, 1)], [(4, 1)], [(5, 1)]]), guard=[[0, 1, -1, 0, 0, 0]],
             duties=[[0, 0, 0, 0, 1, 0], [0, 0, 0, 0, 0, 1]])]}
    alone = {"widths": [2, 4], "exits": [3], "entries": [0], "edges": [
        edge(0, (0, 1), (0, [[(0, 1)], [], [(1, 1)], []])),
        edge(1, (0, 1), moves(4, c1=[(1, 1), (0, 1)], c3=[(3, 1), (0, 1)])),
        edge(1, (1, 0), (0, [[(0, 1)], [(2, 1)], [(3, 1)]]), guard=[[0, 1, -1, 0]], duties=[[0, 0, 0, 1]])]}
    return [(up, "safe", "not safe 2"), (two, "safe", "not safe 2"), (alone, "not safe 1", "not safe 1")]


def randomly(rng, width):
    places = rng.randint(2, 6)
    widths = [rng.randint(2, 3), *(rng.randint(2, width) for _ in range(places - 1))]
    widths[-1] = width
    exits = [rng.randint(1, 4)]

    def equation(size):
        return [rng.choice([0, 0, 1, -1, 2]) for _ in range(size)]

    edges = []
    for number in range(rng.randint(places, 3 * places)):
        source = 0 if number == 0 else rng.randrange(places)
        to = (1, 0) if rng.random() < 0.15 else (0, rng.randrange(1, places))
        size = exits[0] if to[0] else widths[to[1]]
        if to[0] == 0 and size == widths[source] and size > 1 and rng.random() < 0.2:
            action = 1, rng.randrange(1, size)
        elif to[0] == 0 and size == widths[source] and rng.random() < 0.7:
            action = moves(size, **{f"c{rng.randrange(size)}": [(i, rng.choice([1, 1, -1, 2])) for i in
                                    sorted(rng.sample(range(size), min(size, 2)))]})
        else:
            action = 0, [[(i, rng.choice([1, -1, 1, 3])) for i in
                          sorted(rng.sample(range(widths[source]), rng.randint(0, min(2, widths[source]))))]
                         for _ in range(size)]
        guard = [equation(widths[source])] if rng.random() < 0.3 else []
        duties = [equation(widths[source])] if rng.random() < 0.1 else []
        edges.append(edge(source, to, action, guard, duties))
    return {"widths": widths, "exits": exits, "entries": [0], "edges": edges}


def outcomes(programs):
    """What the program prints: two lines for each."""
    with tempfile.TemporaryDirectory() as room:
        os.makedirs(f"{room}/crates/fixpoint_check/src")
        with open(f"{TOP}/crates.txt") as names, open(f"{room}/crates.txt", "w") as chosen:
            for line in names:
                if line.split(":")[0] in CRATES:
                    chosen.write(line)
            chosen.write(f"fixpoint_check: {' '.join(CRATES)}\n")
        for name in CRATES:
            shutil.copytree(f"{TOP}/crates/{name}", f"{room}/crates/{name}", ignore=shutil.ignore_patterns("out", "must-fail"))
        shutil.copy(f"{TOP}/HANDLES", f"{room}/HANDLES")
        shutil.copy(f"{HERE}/src/main.rt.txt", f"{room}/crates/fixpoint_check/src/main.rt")
        with open(f"{room}/programs", "w") as file:
            file.write(f"{len(programs)}\n")
            file.writelines(listed(program) + "\n" for program in programs)
        told = subprocess.run(["rt", "try", "--seconds", "600", "--data", f"programs={room}/programs"],
                              cwd=f"{room}/crates/fixpoint_check", capture_output=True, text=True)
        lines = [line for line in told.stdout.splitlines() if line.split()[:1] in (["safe"], ["range"], ["memory"], ["not"])]
        if len(lines) != 2 * len(programs):
            sys.exit(told.stdout + told.stderr)
        return list(zip(lines[::2], lines[1::2]))


def main():
    rng = random.Random(int(sys.argv[1]) if len(sys.argv) > 1 else 1)
    first = known()
    programs = [program for program, _, _ in first] + [randomly(rng, w) for w in range(2, 65) for _ in range(5)]
    wrong, counts = 0, Counter()
    for number, (program, (spans, constants)) in enumerate(zip(programs, outcomes(programs))):
        here = solved(program)
        right = spans == here and not (constants == "safe" and here.startswith("not"))
        if number < len(first):
            _, safe, flat = first[number]
            right = right and spans.startswith(safe) and constants == flat
        counts[spans.split()[0]] += 1
        counts["constants"] += constants == "safe"
        if not right:
            wrong += 1
            print(f"program {number}: {spans} / {constants}, here {here}")
            print(listed(program))
    print(f"{len(programs)} programs: {counts['safe']} safe, {counts['not']} not safe, {counts['range']} with a large entry; "
          f"over constants {counts['constants']} safe; {wrong} wrong")
    return 1 if wrong else 0


sys.exit(main())
