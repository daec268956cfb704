"""A module that is its own prepared text, with verdicts on it, for tests of what comes after judging."""

from __future__ import annotations

import re
import sys
from pathlib import Path

sys.path.insert(0, str(Path(__file__).resolve().parent.parent))

from pungi_module.judged import Judged  # noqa: E402
from pungi_module.model import Assumption, Place, Prepared, PreparedFunction, Row  # noqa: E402
from pungi_module.model import Run, Step, Value, Verdict  # noqa: E402

TEXT = """typedef struct { PyObject_HEAD PyObject *item; } Box;

static PyObject *
Box_round(Box *self, PyObject *digits)
{
    PyObject *round = NULL, *result;
    round = PyObject_GetAttrString(self->item, "__round__");
    if (round == NULL)
        return NULL;
    result = PyObject_CallObject(round, digits);
    if (result == NULL)
        return NULL;
    Py_DECREF(round);
    return result;
}

static PyObject *
twice(PyObject *self, PyObject *x)
{
    Py_INCREF(x);
    Py_INCREF(x);
    return x;
}

static PyObject *
same(PyObject *self, PyObject *x)
{
    Py_INCREF(x);
    return x;
}

static PyObject *
Box_rounded(Box *self)
{
    return Box_round(self, NULL);
}

static PyObject *
deep(PyObject *self)
{
    return NULL;
}

static PyObject *
odd(PyObject *self)
{
    return NULL;
}

static PyObject *
first(Box *self)
{
    return self->item;
}
"""
ROWS = {
    "PyObject_GetAttrString": Row(("object", "text"), "new"),
    "PyObject_CallObject": Row(("object", "object?"), "new"),
}
OBJECT, NULL = (lambda number: Value("object", number)), Value("null")
STEPS = (Step(7, 40, OBJECT(26)), Step(7, 13, OBJECT(27)), Step(10, 14, NULL))
RUN = Run(12, 9, 27, 1, 0, 28, (OBJECT(24), OBJECT(25)), STEPS)
TWICE = Run(22, 5, 25, 2, 1, 26, (OBJECT(24), OBJECT(25)), ())
FIRST = Run(53, 5, 25, 0, 1, 26, (OBJECT(24),), (Step(53, 16, OBJECT(25)),))
THROUGH = Run(35, 5, 27, 1, 0, 28, (OBJECT(24),), STEPS)
VERDICTS = [
    Verdict("Box_round", "faulty", line=12, column=9, run=RUN),
    Verdict("twice", "faulty", line=22, column=5, run=TWICE),
    Verdict("same", "clean"),
    Verdict("Box_rounded", "faulty", line=35, column=5, run=THROUGH),
    Verdict("deep", "unknown", "traces"),
    Verdict("first", "faulty", line=53, column=5, run=FIRST),
]
PASTE = '[convention.first]\nreturns = "borrowed"\n'


def judged(file: str) -> Judged:
    """The sample as it would come from judging a file with this text."""
    places = {(line, match.start() + 1): Place(file, line, match.start() + 1)
              for line, words in enumerate(TEXT.split("\n"), 1) for match in re.finditer(r"\w+|->", words)}
    functions = [function(file, name) for name in ("Box_round", "twice", "same", "Box_rounded", "deep", "odd", "first")]
    functions[1].assumptions.append(Assumption("element", "args[1]", Place(file, 20, 5)))
    functions[2].assumptions.append(Assumption("declared", "same", Place(file, 29, 5)))
    functions[3].calls.append("Box_round")
    functions[5].not_prepared = "a statement expression"
    prepared = Prepared(file, TEXT, dict(ROWS), functions, places)
    return Judged(prepared, {v.function: v for v in VERDICTS}, ROWS, {"first": PASTE})


def function(file: str, name: str) -> PreparedFunction:
    """A function of the sample."""
    line = next(i for i, words in enumerate(TEXT.split("\n"), 1) if words.startswith(f"{name}("))
    return PreparedFunction(name, Place(file, line, 1), line)


def is_weak(name: str) -> bool:
    """Whether an assumption is weak, in the sample."""
    return name == "element"
