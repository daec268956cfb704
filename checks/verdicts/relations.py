#!/usr/bin/env python3
"""relations.py [PROGRAM [COUNT [SEED]]] [--write FILE] [--report FILE]: makes COUNT functions with loops that count, over
two objects and numbers, has the program judge them, and computes by itself, over fractions, which linear equations hold
in them.

Where equations show that nothing is owed at each return the program must say clean. Where it says unknown there must be
none, and where it says clean each run over small numbers must be balanced, whether the equations show it or not: the
program also looks at each trace where there are few, and knows which numbers are -1, 0 or 1. Of a faulty function the
printed run is run. A run in which a number overflows counts for nothing.

The program keeps vectors without a leading coordinate where an equation can't hold of any state, and so goes ways that
affine hulls exclude. What shows only by such hulls, and is unknown, is counted apart. So is what shows only where 2 * n
is linear: the program takes such a product for any number, as its constant stands in a temporary. And so is what is
unknown since it has too many places, too many traces or too large factors."""
import random
import sys
from collections import Counter

from counted import body_text
from counted_at_random import function
from interpreter import Run
from judged import options, verdicts
from karr import Analysis
from spans import Hull, Span

SMALL = range(-2, 5)

LIMITS = ("shapes", "traces", "range")


def text_of(name, it):
    head = f"{it.result}{' ' * (it.result == 'void')}{name}(PyObject *x, PyObject *y, {it.kind} n, {it.kind} k)"
    return f"{head} {{ {body_text(it)} }}"


def functions(count, seed):
    rng = random.Random(seed)
    return {f"g{i}": function(rng, rng.choice(["int", "long"])) for i in range(count)}


def unbalanced(it):
    """How many runs over small numbers return, and those numbers with which one returns unbalanced."""
    ends = {(n, k): Run(it, n, k).end() for n in SMALL for k in SMALL}
    returned = {given: owed for given, owed in ends.items() if owed is not None}
    return len(returned), [given for given, owed in returned.items() if any(owed.values())]


def is_shown(it, line, lines):
    """Whether the printed run leaves the printed object off by what is printed."""
    x, y, n, k = (words[1:] for words in lines if words[0] == "argument")
    objects = {"x": x, "y": y}
    nulls = [name for name, words in objects.items() if words == ["null"]]
    owed = Run(it, int(n[1]), int(k[1]), nulls).end()
    off = owed and sum(count for name, count in owed.items() if objects[name] == ["object", line[4]])
    return owed is not None and off == int(line[6]) - int(line[8])


class Comparison:
    """What the verdicts and the equations say, counted."""

    def __init__(self):
        self.counts, self.runs, self.wrong = Counter(), 0, []

    def say_wrong(self, text, line, why):
        self.wrong.append(f"{' '.join(line)}: {why}: {text}")

    def compare(self, text, it, line, lines):
        shows = Analysis(it, Hull).shows_balance()
        if line[0] == "clean":
            self.clean(text, it, line, shows)
        elif line[0] == "faulty":
            self.faulty(text, it, line, lines, shows)
        elif line[0] == "unknown":
            self.unknown(text, it, line, shows)
        else:
            self.say_wrong(text, line, "nothing here is refused")

    def clean(self, text, it, line, shows):
        returned, off = unbalanced(it)
        self.runs += returned
        self.counts["clean", shows] += 1
        if off:
            self.say_wrong(text, line, f"but off over n, k = {off[0]}")

    def faulty(self, text, it, line, lines, shows):
        self.counts["faulty", ""] += 1
        if shows:
            self.say_wrong(text, line, "but equations show balance")
        if not is_shown(it, line, lines):
            self.say_wrong(text, line, f"but not over {lines}")

    def unknown(self, text, it, line, shows):
        if not shows:
            self.counts["unknown", line[2]] += 1
            self.counts["unbalanced", ""] += bool(unbalanced(it)[1])
        elif line[2] in LIMITS:
            self.counts["limit", ""] += 1
        elif Analysis(it, Span, has_products=False).shows_balance():
            self.say_wrong(text, line, "but equations show balance")
        else:
            self.counts["only products" if Analysis(it, Span).shows_balance() else "only hulls", ""] += 1

    def printed(self):
        counts = self.counts
        open_for = ", ".join(f"{n} for {why}" for (what, why), n in sorted(counts.items()) if what == "unknown") or "none"
        return "\n".join([
            f"{counts['clean', True]} clean where equations show balance, {counts['clean', False]} clean where none do;",
            f"{self.runs} runs of these over small numbers; {counts['faulty', '']} faulty; unknown where no equations show",
            f"balance: {open_for} (of these {counts['unbalanced', '']} are unbalanced in a run over small numbers);",
            f"unknown where only products with constants show it: {counts['only products', '']},",
            f"where only affine hulls do: {counts['only hulls', '']}, and for a limit though equations show it:",
            f"{counts['limit', '']}; {len(self.wrong)} wrong",
        ])


def main():
    chosen = options(__doc__, 1000)
    made = functions(chosen.count, chosen.seed)
    texts = {name: text_of(name, it) for name, it in made.items()}
    found = verdicts(chosen, "", texts)
    compared = Comparison()
    for name, it in made.items():
        compared.compare(texts[name], it, *found[name])
    print("\n".join(compared.wrong + [f"{len(made)} functions: {compared.printed()}"]))
    return 1 if compared.wrong else 0


if __name__ == "__main__":
    sys.exit(main())
