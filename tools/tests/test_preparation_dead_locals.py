"""Dead locals, set to one value: where the stores stand, and what such functions do, run in this Python."""

from __future__ import annotations

import unittest
from collections.abc import Iterable
from dataclasses import replace
from unittest import mock

from preparation_runs import PreparationCase, body, prepared
from with_program import ProgramCase

from pungi_module import judging
from pungi_module.convention_file import Convention
from pungi_module.findings import Word
from pungi_module.model import Prepared, Verdict
from pungi_module.preparation.options import Options

CLEARED = Options(cleared=frozenset({"f"}))

#: What keeps ways apart after a dead local, so that it is worth to set it: statements that branch and join nowhere.
AFTER = "g(r); g(r); g(r); g(r); if (h(r) < 0) goto end; Py_INCREF(r);"
HEAD = """static void g(PyObject *o) { Py_INCREF(o); Py_DECREF(o); }
    static int h(PyObject *o) { return PyObject_IsTrue(o); }
    """


class DeadLocals(PreparationCase):
    """What stands in the text for each construct of control flow."""

    def cleared(self, source: str, *runs: Iterable, result: str = "object") -> str:
        """The body of `f` with its dead locals set. Each run of the source with these arguments is one of it."""
        found: Prepared | None = None
        for arguments in runs:
            found = self.assert_runs(HEAD + source, "f", arguments, result, options=CLEARED)
        return body(found or prepared(HEAD + source, CLEARED), "f")

    def test_after_a_statement(self) -> None:
        text = self.cleared("""PyObject *f(PyObject *a, PyObject *r) { PyObject *x = PyObject_Str(a);
            Py_XDECREF(x); %s end: return r; }""" % AFTER, [list, list], [list, lambda: [1]])
        self.assertIn("Py_XDECREF(x); x = NULL;", text)

    def test_parameter_that_is_taken_over(self) -> None:
        source = "PyObject *f(PyObject *a, PyObject *b) { return PyList_New(0); }"
        for takes, parameters in (((), "int a, int b"), ((2,), "int a, PyObject *b")):
            options = replace(CLEARED, conventions={"f": Convention("f", takes=takes)})
            self.assertIn(f"f({parameters})", prepared(source, options).text)

    def test_not_in_front_of_a_return_or_a_store(self) -> None:
        text = self.cleared("""PyObject *f(PyObject *a, PyObject *r) { PyObject *x = PyObject_Str(a);
            Py_XDECREF(x); x = PyObject_Repr(a); %s end: Py_XDECREF(x); Py_INCREF(r); return r; }""" % AFTER,
            [list, list], [list, lambda: [1]])
        self.assertNotIn("x = NULL", text)

    def test_branch_without_else(self) -> None:
        text = self.cleared("""PyObject *f(PyObject *a, PyObject *r) { PyObject *x = PyObject_Str(a);
            if (h(a)) { Py_XDECREF(x); x = PyObject_Repr(a); } Py_XDECREF(x); %s end: return r; }""" % AFTER,
            [list, list], [lambda: [1], lambda: [1]])
        self.assertEqual(text.count("x = NULL"), 1)

    def test_after_the_ways_have_joined(self) -> None:
        text = self.cleared("""PyObject *f(PyObject *a, PyObject *r) { PyObject *x = PyObject_Str(a);
            if (h(a)) { Py_XDECREF(x); } else { Py_CLEAR(x); } %s end: return r; }""" % AFTER,
            [list, list], [lambda: [1], lambda: [1]])
        self.assertIn("} x = NULL;", text)

    def test_local_of_a_loop_is_declared_at_the_top(self) -> None:
        text = self.cleared("""PyObject *f(PyObject *a, PyObject *r) { PyObject *it = PyObject_GetIter(a);
            if (it == NULL) return NULL;
            for (;;) { PyObject *x = PyIter_Next(it); if (x == NULL) break; Py_DECREF(x); }
            Py_DECREF(it); %s end: return r; }""" % AFTER, [list, list], [lambda: [1, 2], lambda: [1]])
        self.assertTrue(text.startswith("{ PyObject *x = NULL;"), text)
        self.assertNotIn("PyObject *x = PyIter_Next", text)

    def test_loop_that_reads_in_its_next_turn(self) -> None:
        text = self.cleared("""PyObject *f(PyObject *a, PyObject *r) { PyObject *x = NULL; long n = 0;
            while (n < 3) { Py_XDECREF(x); x = PyObject_Str(a); n++; if (h(r)) continue; g(r); g(r); }
            Py_XDECREF(x); Py_INCREF(r); return r; }""", [list, list], [lambda: [1], lambda: [1]])
        self.assertNotIn("x = NULL; } ", text)

    def test_do_and_break(self) -> None:
        self.cleared("""PyObject *f(PyObject *a, PyObject *r) { PyObject *x; int n = 0;
            do { x = PyObject_Str(a); if (x == NULL) break; Py_DECREF(x); } while (++n < 2 && h(r));
            %s end: return n ? r : NULL; }""" % AFTER.replace("Py_INCREF(r);", ""), [list, list],
            [lambda: [1], lambda: [1]])

    def test_switch(self) -> None:
        text = self.cleared("""PyObject *f(PyObject *a, PyObject *r, int n) { PyObject *x = PyObject_Str(a);
            switch (n) { case 1: Py_XDECREF(x); break; case 2: Py_CLEAR(x); case 3: Py_XDECREF(x); break;
            default: Py_XDECREF(x); return NULL; } %s end: return r; }""" % AFTER,
            *([list, list, number] for number in (1, 2, 3, 4)))
        self.assertIn("} x = NULL;", text)

    def test_goto_that_leads_back(self) -> None:
        self.cleared("""PyObject *f(PyObject *a, PyObject *r) { PyObject *x = NULL; int n = 0;
            again: Py_XDECREF(x); x = PyObject_Str(a); g(r); g(r); g(r); g(r); if (h(r) && n++ < 2) goto again;
            Py_XDECREF(x); %s end: return r; }""" % AFTER, [list, list], [lambda: [1], lambda: [1]])

    def test_operand_that_may_not_be_evaluated(self) -> None:
        text = self.cleared("""PyObject *f(PyObject *a, PyObject *r) { PyObject *x = PyObject_Str(a), *y = x;
            if (h(r) && (x = PyObject_Repr(a)) != NULL) Py_DECREF(y); else y = NULL;
            g(r); g(r); g(r); g(r); Py_XDECREF(x); if (h(r) < 0) goto end; Py_INCREF(r); end: return r; }""",
            [list, lambda: [1]], [list, list])
        self.assertLess(text.index("Py_XDECREF(x)"), text.rindex("x = NULL"))

    def test_assignment_of_a_dead_local(self) -> None:
        text = self.cleared("""PyObject *f(PyObject *a) { PyObject *x; const char *s; long n; int ok;
            ok = PyArg_ParseTuple(a, "Osl", &x, &s, &n); if (!ok) return NULL;
            if (h(x)) Py_RETURN_NONE; return NULL; }""",
            [lambda: (1, "x", 2)], [lambda: (0, "x", 2)], [tuple])
        self.assertNotIn("pungi_any_text", text)
        self.assertNotIn("char *s", text)

    def test_parameter_that_nothing_reads(self) -> None:
        found = self.assert_runs("PyObject *f(PyObject *self, PyObject *a) { Py_INCREF(a); return a; }", "f",
                                 [None, list], options=CLEARED)
        self.assertIn("f(int self, PyObject *a)", found.text)

    def test_argument_that_is_taken_over_stays(self) -> None:
        text = self.cleared("""int f(PyObject *a, PyObject *b) { return PyList_SetItem(a, 0, Py_NewRef(b)); }""",
                            [lambda: [1], list], result="int")
        self.assertIn("PyList_SetItem(a, 0, Py_NewRef(b))", text)

    def test_stores_stand_on_the_line_before(self) -> None:
        source = HEAD + """PyObject *f(PyObject *a, PyObject *r) {
            PyObject *x = PyObject_Str(a);
            Py_XDECREF(x);
            %s end: return r; }""" % AFTER
        plain, found = prepared(source), prepared(source, CLEARED)
        lines = [[word in line for line in text.split("\n")]
                 for text, word in ((plain.text, "Py_XDECREF(x);"), (found.text, "Py_XDECREF(x); x = NULL;"))]
        self.assertEqual(*lines)
        places = [{(place.line, place.column) for place in one.places.values()} for one in (found, plain)]
        self.assertLessEqual(*places)


#: A function that is open as it stands: each text may be NULL.
OPEN = """PyObject *f(PyObject *self, PyObject *a, long m) { const char *%s; PyObject *o; long n = 0;
    if (!PyArg_ParseTuple(a, "%s", %s)) return NULL;
    while (n < m) { n++; o = PyObject_Str(a); if (o == NULL) return NULL; %%s Py_DECREF(o); }
    Py_RETURN_NONE; }""" % (", *".join(f"t{i}" for i in range(15)), "z" * 15, ", ".join(f"&t{i}" for i in range(15)))
LEAK = "if (!t0) continue;"


def as_it_stands(prepared: Prepared, verdicts: dict[str, Verdict], *_: object) -> tuple[Prepared, dict[str, Verdict]]:
    """No second look."""
    return prepared, verdicts


class Judged(ProgramCase):
    """Functions that are open as they stand."""

    def test_open_as_it_stands(self) -> None:
        for leak in ("", LEAK):
            with mock.patch.multiple(judging, look_with_cleared=as_it_stands, second_look=as_it_stands):
                self.assertEqual(self.words(OPEN % leak)["f"][0], Word.OPEN)

    def test_clean_or_faulty_when_cleared(self) -> None:
        self.assertEqual(self.words(OPEN % "")["f"][0], Word.CLEAN)
        self.assertEqual(self.words(OPEN % LEAK)["f"][0], Word.FAULT)


if __name__ == "__main__":
    unittest.main()
