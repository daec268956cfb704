#!/usr/bin/env python3
"""run.py [PROGRAM [COUNT [SEED]]] [--calls] [--varied] [--formats] [--made]
[--conventions] [--write FILE] [--report FILE]: makes COUNT functions (2,000 unless it is
named) from SEED, has the program (out/pungi of the crate pungi, unless it is named) judge them, and runs them in this
Python, whose headers and a C compiler it needs. A third of the functions have loops that count, whose balance often shows
by linear equations alone; of the others, which use more of the API, a third have a loop. With --calls there are functions
that call others until COUNT call others: helpers on up to three levels, seldom four, of which some call themselves or each
other, and functions that call them. With --varied some calls have any number of
arguments, and some places are cleared; with --formats tuples are taken apart, dicts are stepped through, and values are built;
with --made objects are made; with --conventions most functions have a declared convention, by which they are called.

A clean function is run with each way in which its calls of the API can go on and fail (a hundred of them at most), over
arguments that are different, the same, or NULL, and over some numbers: each object must have its count again once the
result is given back and the field, the global, the lists, the dicts and the module are emptied. (All but None, True and
False, which the interpreter's own tables hold and now and then let go.) Of a faulty function the printed run is run: the count of the printed
object must be off by as much as is printed; and it is counted whether the runs of clean functions would have met the
fault too. A run that passes NULL where the manual forbids it stops, and owes nothing, and so does one in which a number
overflows or is divided by 0; one with 200 turns of loops is given up. Where a call is said to be left, it must stand at
its place."""
import importlib.util
import itertools
import os
import random
import re
import subprocess
import sys
import sysconfig
import tempfile
from collections import Counter

import calling
import counted
import counted_at_random
import using_api
from formatted import formatted
from function import NUMBERS, PARAMETERS, made as made_of, under_convention
from judged import options, verdicts
from making import TYPE, making
from varied import varied

HERE = os.path.dirname(os.path.abspath(__file__))

DECLARED = "typedef struct { PyObject_HEAD PyObject *first; long size; } Box; static PyObject *kept; static int mode;"

MOST_PLANS = 100


def functions(count, rng, other):
    for i in range(count):
        counts = rng.random() < 0.35
        body = counted.body_text(counted_at_random.function(rng, "long", True)) if counts else using_api.body(rng)
        yield made_of(f"f{i}", other(body, rng), rng)


def built(made, room, words):
    """The call run() of harness.c over these functions."""
    with open(f"{HERE}/harness.c") as it:
        harness = it.read()
    names = sorted(set(re.findall(r"\bmy_(Py[A-Z]\w*)\(", harness)))
    parts = {
        "functions.c": "\n".join([*dict.fromkeys(it.line for it in made), *(it.with_all() for it in made)]),
        "names.h": ", ".join(f"run_{it.name}" for it in made),
        "renamed.h": "\n".join(f"#undef {it}\n#define {it} my_{it}" for it in names),
        "original.h": "\n".join(f"#undef {it}" for it in names),
    }
    for name, text in parts.items():
        with open(f"{room}/{name}", "w") as it:
            it.write(text + "\n")
    include = sysconfig.get_paths()["include"]
    words = ["cc", *words, "-O1", "-w", "-fsanitize=signed-integer-overflow,integer-divide-by-zero", "-fsanitize-undefined-trap-on-error"]
    words += ["-shared", "-fPIC", f"-I{include}", f"-I{room}", f"{HERE}/harness.c", "-o", f"{room}/verdict_runs.so"]
    subprocess.run(words, check=True)
    spec = importlib.util.spec_from_file_location("verdict_runs", f"{room}/verdict_runs.so")
    found = importlib.util.module_from_spec(spec)
    spec.loader.exec_module(found)
    return found.run


def plans(run, which, given, numbers, held, kept):
    """What becomes of the function in each way that its calls can go on and fail, and that way."""
    plan = []
    while True:
        used, off = run(which, 0, given, *numbers[:2], held, numbers[2], kept, numbers[3], plan, [])
        plan = plan[:used] + [0] * (used - len(plan))
        yield off, plan
        while plan and plan[-1]:
            plan.pop()
        if not plan:
            return
        plan[-1] = 1


def arguments_from(first):
    """The numbers of the objects that b, l, d, m, x and y are, that b's field holds, and that the global holds, or -1 for NULL. The
    first of them has this number."""
    b, l, d, m, x, y, p, q = range(first, first + 8)
    return [([b, l, d, m, x, y], p, q), ([b, l, d, m, x, x], x, x), ([b, l, d, m, -1, y], y, p), ([b, l, d, m, x, -1], -1, -1)]


# The numbers that n, k, b's field and the global are.
NUMBERS_GIVEN = [(0, 0, 0, 0), (1, -1, 5, 3), (5, 7, 100, -3), (-3, 100, 1, 5), (2147483646, 5, -2, 0), (6, 4, 4, 1)]


# How harness.c has a printed value that is no object.
CODES = {"null": -1, "int": -2, "text": -3, "given": -4, "failed": -5}


def code_of(words):
    """A printed value as harness.c has it: an object's number, or a code."""
    return CODES[words[0]] if words[0] in CODES else int(words[1])


def number_of(words):
    return int(words[1]) if words[0] in ("int", "given", "failed") else 0


def off_in_runs(run, which, first):
    """How many runs of the function returned, and those after which some count is off. The first object that isn't static has this
    number."""
    ways = [(given, numbers, held, kept) for given, held, kept in arguments_from(first) for numbers in NUMBERS_GIVEN]
    ends = [(off, way, plan[:]) for way in ways for off, plan in itertools.islice(plans(run, which, *way), MOST_PLANS)]
    return sum(it[0] is not None for it in ends), [it for it in ends if it[0]]


def text_at(function, place):
    """What stands at a place in the line of a function."""
    return function.line[int(place.split(":")[1]) - 1 :]


def is_left(function, line):
    """Whether a call that is said to be left stands there."""
    return text_at(function, line[3]).startswith(f"{line[4]}(")


def is_shown(run, which, function, line, lines):
    """Whether the printed run leaves the printed object off by what is printed, or None where it has answers that these
    objects can't give."""
    arguments = dict(zip(function.parameters, (it[1:] for it in lines if it[0] == "argument")))
    given = [code_of(arguments.get(it, ["null"])) for it in PARAMETERS if it not in NUMBERS]
    numbers = [number_of(arguments.get(it, ["int", "0"])) for it in NUMBERS]
    used = [(text_at(function, it[0]), it[1:]) for it in lines if ":" in it[0]]
    # (what stands at an arrow or at a global's name is what was held there)
    first, size, kept, mode = ([it for at, it in used if at.startswith(word)] for word in ("->first", "->size", "kept", "mode"))
    answers = [it for at, it in used if not at.startswith(("->", "kept", "mode"))]
    objects = [code_of(it[0]) if it else -1 for it in (first, kept)]
    counts = [number_of(it[0]) if it else 0 for it in (size, mode)]
    told = [code_of(it) for it in answers], [number_of(it) for it in answers]
    end = run(which, 1, given, *numbers, objects[0], counts[0], objects[1], counts[1], *told)
    change, escaped = int(line[6]), int(line[8])
    return end and end[1] is not None and (int(line[4]), change - escaped) in end[1]


def main():
    flags = {
        "--calls": "functions that call others", "--varied": "calls of any number of arguments, and cleared places",
        "--formats": "calls with formats and outputs", "--made": "objects that are made", "--conventions": "declared conventions",
    }
    chosen = options(__doc__, 2000, flags)
    rng = random.Random(chosen.seed)
    other = making if chosen.made else varied if chosen.varied else formatted if chosen.formats else lambda body, rng: body
    declared, first = (f"{DECLARED} {TYPE}", 25) if chosen.made else (DECLARED, 24)
    made = list((calling.functions if chosen.calls else functions)(chosen.count, rng, other))
    if chosen.conventions:
        made = [under_convention(it, rng) for it in made]
    tables = {it.line: it.convention.table(it.parameters) for it in made if it.convention}
    found = verdicts(chosen, declared, {it.name: it.line for it in made}, tables)
    told, open_for, shown, runs, met, wrong = Counter(), Counter(), Counter(), 0, 0, 0
    with tempfile.TemporaryDirectory() as room:
        run = built(made, room, ["-DMADE"] if chosen.made else [])
        for i, it in enumerate(made):
            line, lines = found[it.name]
            told[line[0]] += 1
            if line[0] == "unknown":
                open_for[line[2]] += 1
                if line[2] == "call" and not is_left(it, line):
                    wrong += 1
                    print(f"{' '.join(line)}, which isn't there: {it.line}")
            if line[0] == "clean":
                ended, off = off_in_runs(run, i, first)
                runs += ended
                if off:
                    wrong += 1
                    print(f"clean, but off, over arguments and calls, by {off}: {it.name} of {it.line}")
            elif line[0] == "faulty":
                shows = is_shown(run, i, it, line, lines)
                shown[shows] += 1
                met += bool(off_in_runs(run, i, first)[1])
                if shows is False:
                    wrong += 1
                    print(f"{' '.join(line)}, but not over {lines}: {it.line}")
    print(f"{len(made)} functions: {told['clean']} clean, in {runs} runs; {told['faulty']} faulty, of which {shown[True]} were")
    print(f"shown by the printed run ({shown[None]} have answers that these objects can't give) and {met} by one of the runs of clean ones;")
    reasons = ", ".join(f"{n} for {why}" for why, n in sorted(open_for.items()))
    print(f"{told['unknown']} unknown ({reasons}), {told['refused']} refused; {wrong} wrong")
    return 1 if wrong else 0


if __name__ == "__main__":
    sys.exit(main())
