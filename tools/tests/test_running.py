"""Tests of the harness itself: what it sees of counts, and which prepared texts it accepts."""

from __future__ import annotations

import unittest

import running
from running import Array, Outcome, Text
from pungi_module.model import Row

ORIGINAL = """
static PyObject *same(PyObject *self, PyObject *x) { Py_INCREF(x); return x; }
static PyObject *twice(PyObject *self, PyObject *x) { Py_INCREF(x); Py_INCREF(x); return x; }
static PyObject *lost(PyObject *self, PyObject *x) { PyObject *list = PyList_New(1000); if (!list) return NULL; Py_RETURN_NONE; }
static int positive(long n) { return (unsigned char)n > 3; }
static PyObject *first(PyObject *const *args, Py_ssize_t n) { return n ? Py_NewRef(args[0]) : NULL; }
static int has_text(const char *t) { return t != NULL; }
"""


@unittest.skipIf(running.missing(), running.missing())
class Running(unittest.TestCase):
    """Outcomes of functions whose effects are plain from their text."""

    def test_returned_argument(self) -> None:
        outcome = running.run_original(ORIGINAL, "same", [None, object])
        self.assertEqual(outcome, Outcome("object 3", (0, 0, 0, 0), False))

    def test_one_reference_too_many(self) -> None:
        self.assertEqual(running.run_original(ORIGINAL, "twice", [None, object]).changes, (0, 0, 0, 1))

    def test_lost_memory(self) -> None:
        self.assertTrue(running.run_original(ORIGINAL, "lost", [None, object]).leaks)

    def test_text_and_null(self) -> None:
        self.assertEqual(running.run_original(ORIGINAL, "has_text", [Text(b"x")], "int").result, "1")
        self.assertEqual(running.run_original(ORIGINAL, "has_text", [Text(None)], "int").result, "0")

    def test_prepared_chooses(self) -> None:
        text = "static int positive(long n) { return pungi_truth_l(n) > 0; }"
        running.assert_has_run(self, ORIGINAL, text, {"pungi_truth_l": Row(("long",), "truth")}, "positive", [7], "int")

    def test_prepared_array(self) -> None:
        text = "typedef struct { PyObject_HEAD PyObject *i0; } Cells; PyObject *first(Cells *args, Py_ssize_t n) { return n ? Py_NewRef(args->i0) : NULL; }"
        running.assert_has_run(self, ORIGINAL, text, {}, "first", [Array((object, object)), 2], only=True)

    def test_prepared_that_misses_a_run(self) -> None:
        text = "static PyObject *same(PyObject *self, PyObject *x) { 1 / 0; return x; }"
        self.assertEqual(running.run_prepared(text, {}, "same", [None, object]), set())
        with self.assertRaises(AssertionError):
            running.assert_has_run(self, ORIGINAL, text, {}, "same", [None, object])

    def test_prepared_with_another_count(self) -> None:
        text = "static PyObject *same(PyObject *self, PyObject *x) { return x; }"
        with self.assertRaises(AssertionError):
            running.assert_has_run(self, ORIGINAL, text, {}, "same", [None, lambda: [object()]])


if __name__ == "__main__":
    unittest.main()
