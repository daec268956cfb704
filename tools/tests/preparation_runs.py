"""Prepares a C function of a test, and runs it beside the original (see running.py)."""

from __future__ import annotations

import re
import sys
import tempfile
import unittest
from collections.abc import Iterable
from pathlib import Path

sys.path.insert(0, str(Path(__file__).resolve().parent.parent))

from pungi_module.model import Prepared, Row  # noqa: E402
from pungi_module.preparation.options import Options  # noqa: E402
from pungi_module.preparation.prepare import prepare  # noqa: E402
from pungi_module.rows import load_rows  # noqa: E402

import running  # noqa: E402

HEAD = "#define PY_SSIZE_T_CLEAN\n#include <Python.h>\n"

#: Count calls that stop at NULL, as those of the program do.
CHECKED = """
static void pungi_checked_INCREF(void *p) { if (!p) 1 / 0; Py_INCREF((PyObject *)p); }
static void pungi_checked_DECREF(void *p) { if (!p) 1 / 0; Py_DECREF((PyObject *)p); }
static PyObject *pungi_checked_NewRef(void *p) { if (!p) 1 / 0; return Py_NewRef((PyObject *)p); }
"""


def prepared(source: str, options: Options | None = None) -> Prepared:
    """The prepared text of a source that includes Python.h."""
    with tempfile.TemporaryDirectory(prefix="pungi-test-") as folder:
        path = Path(folder, "module.c")
        path.write_text(HEAD + source)
        return prepare(str(path), None, load_rows(), options)


def body(found: Prepared, name: str) -> str:
    """The printed text of a function, on one line."""
    text = " ".join(found.text.split())
    starts = sorted((re.search(r"(?<!\w)%s\(" % item.name, text).start(), item.name)
                    for item in found.functions if not item.not_prepared)
    for at, (start, word) in enumerate(starts):
        if word == name:
            end = starts[at + 1][0] if at + 1 < len(starts) else len(text)
            inner = text[start:end]
            return inner[inner.index("{"):inner.rindex("}") + 1]
    raise AssertionError("%s is not printed" % name)


def assumed(found: Prepared, name: str) -> set[str]:
    """The names of a function's assumptions."""
    return {item.name for function in found.functions if function.name == name for item in function.assumptions}


def runnable(text: str) -> str:
    """The text in the words that the harness stops at."""
    text = CHECKED + re.sub(r"\bPy_(INCREF|DECREF|NewRef)\(", r"pungi_checked_\1(", text)
    # a call that sets the error may be left out: whether there is one is a choice
    text = text.replace("PyErr_Occurred()", "pungi_occurred()")
    return text.replace("extern PyObject *Py_NotImplemented;", "").replace("extern PyObject *Py_Ellipsis;", "")


class PreparationCase(unittest.TestCase):
    """A test that runs original and prepared functions."""

    def assert_runs(self, source: str, function: str, arguments: Iterable, result: str = "object",
                    options: Options | None = None, elsewhere: str = "") -> Prepared:
        """A run of the prepared function does to counts what the original does, with what stands in another file."""
        found = prepared(source, options)
        reasons = [item.not_prepared for item in found.functions if item.name == function]
        self.assertEqual(reasons, [None], found.text)
        if running.missing():
            return found
        original = HEAD + source + elsewhere
        rows = {**found.rows, "pungi_occurred": Row((), "borrowed")}
        running.assert_has_run(self, original, runnable(found.text), rows, function, arguments, result)
        return found

    def assert_stops(self, found: Prepared, function: str, arguments: Iterable, result: str = "object") -> None:
        """Each run of the prepared function stops by itself."""
        if not running.missing():
            runs = running.run_prepared(runnable(found.text), found.rows, function, list(arguments), result)
            self.assertEqual(runs, set())
