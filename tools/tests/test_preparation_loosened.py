"""Functions of which less is kept: original and loosened function, run in this Python, and what comes of verdicts."""

from __future__ import annotations

import tempfile
import unittest
from dataclasses import replace
from pathlib import Path

from preparation_runs import HEAD, PreparationCase, body, prepared
from test_preparation_statements import text
from with_program import ProgramCase

import running
from pungi_module.compilation import Source
from pungi_module.convention_file import Convention
from pungi_module.findings import Word
from pungi_module.judging import Settings, judge_module
from pungi_module.model import OwnConvention, Prepared, Verdict
from pungi_module.preparation.options import Options
from pungi_module.program import ProgramError
from pungi_module.replay.definitions import definitions_of

LOOSE = Options(loosened=frozenset({"f"}))
NUMBERLESS = Options(loosened=frozenset({"f"}), numberless=frozenset({"f"}))
BOX = "typedef struct { PyObject_HEAD PyObject *a; PyObject *b; long n; } Box; "
LEFT = """PyObject *f(PyObject *a, const char *s) { long n = 0; int i;
    for (i = 0; s[i]; i++) { if (s[i] == '_') return NULL; if (s[i] == '-') goto other; n = n + s[i]; }
    if (n > 0) return Py_NewRef(a); Py_RETURN_NONE; other: return Py_NewRef(Py_True); }"""


class Loosened(PreparationCase):
    """Each run of the original is one of the loosened function."""

    def test_loop_that_is_left(self) -> None:
        for word in (b"word", b"", b"a_b", b"a-b"):
            found = self.assert_runs(LEFT, "f", [list, text(word)], options=LOOSE)
        self.assertNotIn("for", body(found, "f"))
        self.assertIn("goto other", body(found, "f"))
        self.assertIn("for", body(prepared(LEFT), "f"))

    def test_loop_around_is_left(self) -> None:
        source = """PyObject *f(PyObject *a) { PyObject *item, *it = PyObject_GetIter(a); long n = 0;
            if (it == NULL) return NULL;
            while ((item = PyIter_Next(it)) != NULL) { if (n > 0) break; n++; Py_DECREF(item); }
            Py_DECREF(it); return item; }"""
        found = self.assert_runs(source, "f", [lambda: [[1], [2], [3]]], options=LOOSE)
        self.assertIn("while", body(found, "f"))
        self.assertRegex(body(found, "f"), r"if \(!?pungi_any_choice\(\)\) { break; }")

    def test_fields_that_are_visited(self) -> None:
        visits = "{ Py_VISIT(self->a); Py_VISIT(self->b); return 0; }"
        source = BOX + "int f(Box *self, visitproc visit, void *arg) " + visits
        self.assertNotIn("f_a", body(prepared(source, LOOSE), "f"))
        self.assertIn("f_a", body(prepared(source), "f"))

    def test_parameter_that_is_taken_over(self) -> None:
        source = "int f(PyObject *a, PyObject *b) { return 0; }"
        for takes, parameters, numbers in (((), "void", None), ((2,), "PyObject *b", (1,))):
            options = replace(LOOSE, conventions={"f": Convention("f", takes=takes)})
            found = prepared(source, options)
            self.assertIn(f"f({parameters})", found.text)
            self.assertEqual(found.conventions, {"f": OwnConvention(takes=numbers)} if numbers else {})
            self.assertEqual(found.parameters, {"f": (2,)} if numbers else {})

    def test_branch_on_an_object_is_kept(self) -> None:
        source = """PyObject *f(PyObject *a) { PyObject *x = PyList_New(0); if (x == NULL) return NULL;
            if (PyList_Append(x, a) < 0) { Py_DECREF(x); return NULL; } return x; }"""
        found = self.assert_runs(source, "f", [list], options=LOOSE)
        self.assertEqual(body(found, "f"), body(prepared(source), "f"))

    def test_value_of_a_branch_is_kept(self) -> None:
        source = "int f(int n) { if (n > 2) { int m = PyErr_CheckSignals(); return m; } return 0; }"
        self.assertIn("n > 2", body(prepared(source, LOOSE), "f"))

    def test_fields_without_objects(self) -> None:
        source = BOX + "PyObject *f(Box *self, int n) { self->n = 3; Py_CLEAR(self->a); %s Py_RETURN_NONE; }"
        unread, read = source % "", source % "if (self->n == 3) Py_RETURN_TRUE;"
        self.assertNotIn("f_n", body(prepared(unread, LOOSE), "f"))
        self.assertIn("f_n", body(prepared(unread), "f"))
        self.assertIn("f_n", body(prepared(read, LOOSE), "f"))

    def test_parameters_that_nothing_reads(self) -> None:
        source = "PyObject *f(const char *s, PyObject *b, int n, PyObject *a) { n += 1; return Py_NewRef(a); }"
        self.assertIn("f(PyObject *a)", prepared(source, LOOSE).text)
        self.assertIn("int n, PyObject *a)", prepared(source).text)

    def test_stores_within_expressions(self) -> None:
        source = """PyObject *f(PyObject *a, PyObject *b) { int r; if ((r = PyObject_IsTrue(b)) < 0) return NULL;
            Py_INCREF(a); return a; }"""
        found = self.assert_runs(source, "f", [list, list], options=LOOSE)
        self.assertNotIn("r =", body(found, "f"))
        self.assertIn("r =", body(prepared(source), "f"))

    def test_numbers(self) -> None:
        source = """PyObject *f(PyObject *a, PyObject *b) { int r = PyObject_IsTrue(b); Py_INCREF(a);
            if (r < 0) { Py_DECREF(a); return NULL; } return a; }"""
        for value in (list, lambda: [1]):
            found = self.assert_runs(source, "f", [list, value], options=NUMBERLESS)
        self.assertNotIn("int r", body(found, "f"))


@unittest.skipIf(running.missing(), running.missing())
class SecondLook(unittest.TestCase):
    """A function that is open where all is kept."""

    def word(self, second: str) -> str:
        """The verdict on a function where the program says this of its looser forms."""
        def judge(module: Prepared) -> list[Verdict]:
            one = module.text[definitions_of(module.text)["f"].body :]
            if "for" not in one and second == "error":
                raise ProgramError("no")
            return [Verdict("f", "unknown" if "for" in one else second, "loop")]

        with tempfile.TemporaryDirectory(prefix="pungi-test-") as folder:
            path = Path(folder, "module.c")
            path.write_text(HEAD + LEFT, encoding="utf-8")
            return judge_module(Source(str(path), ()), Settings(), judge).verdicts["f"].word

    def test_words(self) -> None:
        self.assertEqual(self.word("clean"), "clean")
        for word in ("faulty", "unknown", "refused", "error"):
            self.assertEqual(self.word(word), "unknown", word)


class WithTheProgram(ProgramCase):
    """What the program says of both forms."""

    FIELDS = BOX.replace("long n;", " ".join(f"PyObject *o{i};" for i in range(16)))

    def test_many_fields(self) -> None:
        visits = " ".join(f"Py_VISIT(self->o{i});" for i in range(16))
        source = self.FIELDS + "int f(Box *self, visitproc visit, void *arg) { %s %s return 0; }"
        self.assertEqual(self.words(source % ("", visits))["f"][0], Word.CLEAN)
        self.assertEqual(self.words(source % (visits, "Py_INCREF(self->a);"))["f"][0], Word.FAULT)

    def test_what_stays_open(self) -> None:
        source = """void f(PyObject *a, int n) { int i; for (i = 0; i < n; i++) { Py_INCREF(a); }
            for (i = 0; i < n; i++) { Py_DECREF(a); } }"""
        self.assertEqual(self.words(source)["f"][0], Word.OPEN)


if __name__ == "__main__":
    unittest.main()
