"""Tests of mutants: where they are made, which are chosen, and that one is found."""

from __future__ import annotations

import sys
import tempfile
import unittest
from pathlib import Path

HERE = Path(__file__).resolve().parent
sys.path.insert(0, str(HERE.parent))

import mutate  # noqa: E402
import running  # noqa: E402
from mutants import chosen, mutants  # noqa: E402
from pungi_module.compilation import Source  # noqa: E402
from pungi_module.judging import Settings  # noqa: E402

TEXT = """#include <Python.h>
PyObject *
same(PyObject *x)
{
    /* Py_INCREF(x); */
    if (PyList_Check(x))
        Py_INCREF((x));
    else
        return Py_NewRef(x);
    return x;
}
"""

WAYS_OUT = """{
    if (fails(x)) {
        Py_XDECREF(x); // "the error"
        return NULL;
    }
    Py_CLEAR(self->item);
    Py_CLEAR(x);
    Py_RETURN_NONE;
}
"""


class Mutants(unittest.TestCase):
    """The mutants of a text."""

    def setUp(self) -> None:
        self.mutants = list(mutants(TEXT, {"same": 3}))

    def test_places(self) -> None:
        found = [(m.line, m.what) for m in self.mutants]
        self.assertEqual(found, [(7, "Py_INCREF dropped"), (7, "Py_INCREF twice"), (9, "Py_NewRef dropped")])

    def test_texts(self) -> None:
        changed = [m.applied(TEXT) for m in self.mutants]
        self.assertIn("        ((void)0);\n", changed[0])
        self.assertIn("        (Py_INCREF((x)), Py_INCREF((x)));\n", changed[1])
        self.assertIn("        return ((PyObject *)(x));\n", changed[2])

    def test_ways_out(self) -> None:
        found = list(mutants(WAYS_OUT, {"f": 1}))
        self.assertEqual([(m.line, m.what) for m in found], [
            (3, "Py_DECREF dropped on an error path"), (3, "Py_DECREF twice"), (7, "Py_CLEAR dropped"),
            (8, "return without its count")])
        self.assertIn("    return Py_None;\n", found[-1].applied(WAYS_OUT))

    def test_chosen_evenly(self) -> None:
        groups = {("a", "x"): list(range(50)), ("b", "x"): [100, 101], ("b", "y"): list(range(200, 250))}
        found = chosen(groups, 12, 5)
        self.assertEqual([sum(low <= n < low + 100 for n in found) for low in (0, 100, 200)], [5, 2, 5])
        self.assertEqual(found, chosen(groups, 12, 5))
        self.assertEqual(len(chosen(groups, 1000, 5)), 102)

    @unittest.skipIf(running.missing(), running.missing())
    def test_found(self) -> None:
        settings = Settings(program=HERE / "explorer.py")
        with tempfile.TemporaryDirectory() as folder:
            path = Path(folder, "module.c")
            path.write_text(TEXT, encoding="utf-8")
            source = Source(str(path), ())
            self.assertEqual(mutate.word_of(source, settings, "same"), "clean")
            words = [mutate.mutated(source, mutant, settings) for mutant in self.mutants]
        self.assertEqual(words, ["faulty"] * 3)


if __name__ == "__main__":
    unittest.main()
