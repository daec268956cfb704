"""Statements and locals: each construct, original and prepared, run in this Python."""

from __future__ import annotations

import unittest

from preparation_runs import PreparationCase, assumed, body, prepared


class Statements(PreparationCase):
    """What a statement does to counts stays."""

    def test_goto_and_labels(self) -> None:
        source = """PyObject *f(PyObject *a, PyObject *b) { PyObject *r = NULL, *x = NULL;
            if (PyList_Append(a, b) < 0) goto fail; x = Py_NewRef(b); r = Py_NewRef(a);
            fail: Py_XDECREF(x); return r; }"""
        self.assert_runs(source, "f", [list, list])
        self.assert_runs(source, "f", [tuple, list])

    def test_goto_into_a_branch(self) -> None:
        source = """PyObject *f(PyObject *a, PyObject *b) { PyObject *x = Py_NewRef(b); int n = PyObject_Size(b);
            if (n < 0) goto error; if (n == 1) goto other;
            if (0) { error: Py_CLEAR(x); }
            if (n > 3) { Py_INCREF(b); } else { { other: Py_INCREF(a); } }
            return x; }"""
        for value in (list, lambda: [1], lambda: [1, 2, 3, 4], lambda: 5):
            self.assert_runs(source, "f", [list, value])

    def test_switch(self) -> None:
        source = """enum which { ONE = 1, TWO };
            PyObject *f(PyObject *a, PyObject *b, int n) { switch (n) {
            case ONE: return Py_NewRef(a); case TWO: case sizeof(int): Py_INCREF(b); break;
            default: Py_RETURN_NONE; } return b; }"""
        for number in (1, 2, 4, 9):
            self.assert_runs(source, "f", [list, list, number])

    def test_case_that_is_not_known(self) -> None:
        source = """extern const int here; PyObject *f(PyObject *a, int n) { switch (n) { case offsetof(PyObject, ob_type):
            Py_INCREF(a); return a; case 3: return NULL; } Py_RETURN_NONE; }"""
        found = prepared(source.replace("extern const int here; ", ""))
        self.assertIsNone(found.functions[0].not_prepared)

    def test_block_that_runs_once(self) -> None:
        source = "PyObject *f(PyObject *a) { do { Py_INCREF(a); } while (0); return a; }"
        found = self.assert_runs(source, "f", [list])
        self.assertNotIn("while", body(found, "f"))

    def test_loop_over_objects(self) -> None:
        source = """PyObject *f(PyObject *a) { PyObject *item, *it = PyObject_GetIter(a); long n = 0;
            if (it == NULL) return NULL;
            while ((item = PyIter_Next(it)) != NULL) { n++; Py_DECREF(item); }
            Py_DECREF(it); return n == 2 ? Py_NewRef(a) : NULL; }"""
        self.assert_runs(source, "f", [lambda: [1, 2]])
        self.assert_runs(source, "f", [lambda: 4])

    def test_loop_over_numbers_collapses(self) -> None:
        source = """PyObject *f(PyObject *a, const char *s) { long hash = 0; int i;
            for (i = 0; s[i]; i++) { if (s[i] == '_') continue; hash = hash * 31 + s[i]; }
            if (hash == 7) return Py_NewRef(a); Py_RETURN_NONE; }"""
        found = self.assert_runs(source, "f", [list, text(b"word")])
        self.assertNotIn("for", body(found, "f"))

    def test_loop_that_counts_does_not_collapse(self) -> None:
        source = "void f(PyObject *a, int n) { while (n--) Py_INCREF(a); }"
        self.assertIn("while", body(prepared(source), "f"))

    def test_loop_that_returns_does_not_collapse(self) -> None:
        source = "PyObject *f(PyObject *a, int n) { while (n--) if (n == 3) return Py_NewRef(a); Py_RETURN_NONE; }"
        self.assertIn("while", body(prepared(source), "f"))

    def test_flags_do_not_collapse(self) -> None:
        source = """PyObject *f(PyObject *a, int n) { int found = 0; if (n > 3) found = 1;
            if (found) return Py_NewRef(a); Py_RETURN_NONE; }"""
        found = self.assert_runs(source, "f", [list, 4])
        self.assertIn("found = 1", body(found, "f"))

    def test_constant_condition(self) -> None:
        source = "PyObject *f(PyObject *a) { if (sizeof(long) == 4) { Py_INCREF(a); } return Py_NewRef(a); }"
        found = self.assert_runs(source, "f", [list])
        self.assertNotIn("Py_INCREF", body(found, "f"))

    def test_thread_macros(self) -> None:
        source = """PyObject *f(PyObject *a) { int n; Py_BEGIN_ALLOW_THREADS n = 3; Py_END_ALLOW_THREADS
            return n ? Py_NewRef(a) : NULL; }"""
        self.assert_runs(source, "f", [list])

    def test_case_inside_a_block_is_not_prepared(self) -> None:
        source = "int f(int n) { switch (n) { case 1: { case 2: return 1; } } return 0; }"
        self.assertIn("case", prepared(source).functions[0].not_prepared)


class Locals(PreparationCase):
    """Locals of every sort."""

    def test_array_of_objects(self) -> None:
        source = """PyObject *f(PyObject *a, PyObject *b) { PyObject *v[2] = {a, NULL};
            v[1] = Py_NewRef(b); Py_INCREF(v[0]); Py_DECREF(v[1]); return v[0]; }"""
        found = self.assert_runs(source, "f", [list, list])
        self.assertEqual(assumed(found, "f"), set())

    def test_struct_with_objects(self) -> None:
        source = """typedef struct { PyObject *key; long n; PyObject *value; } Pair;
            PyObject *f(PyObject *a, PyObject *b) { Pair p = {a, 3}; p.value = Py_NewRef(b);
            Py_CLEAR(p.value); return Py_NewRef(p.key); }"""
        found = self.assert_runs(source, "f", [list, list])
        self.assertEqual(assumed(found, "f"), set())

    def test_static_local(self) -> None:
        source = """PyObject *f(PyObject *a) { static PyObject *known = NULL;
            if (known == NULL) { known = PyList_New(0); if (known == NULL) return NULL; }
            return Py_NewRef(a); }"""
        self.assert_runs(source, "f", [list])

    def test_shadowed_names(self) -> None:
        source = """PyObject *f(PyObject *a, int n) { int x = n; { PyObject *x = Py_NewRef(a);
            if (n > 3) return x; Py_DECREF(x); } if (x == 2) Py_RETURN_NONE; return Py_NewRef(a); }"""
        self.assert_runs(source, "f", [list, 5])
        self.assert_runs(source, "f", [list, 2])

    def test_names_of_the_api(self) -> None:
        source = "PyObject *f(PyObject *bool, int Py_LIMIT) { PyObject *PyList_Size_ = bool; return Py_NewRef(PyList_Size_); }"
        self.assert_runs(source, "f", [list, 5])

    def test_unread_numbers_go(self) -> None:
        source = "PyObject *f(PyObject *a) { int n = 3; n = n * 2; (void)n; return Py_NewRef(a); }"
        found = self.assert_runs(source, "f", [list])
        self.assertNotIn("int n", body(found, "f"))

    def test_effects_of_unread_numbers_stay(self) -> None:
        source = "PyObject *f(PyObject *a) { int n = Py_NewRef(a) != NULL; (void)n; return a; }"
        self.assert_runs(source, "f", [list])

    def test_locals_of_blocks_share_variables(self) -> None:
        block = "{ PyObject *x = Py_NewRef(a); if (!x) return NULL; Py_DECREF(x); }"
        source = "PyObject *f(PyObject *a) { %s return Py_NewRef(a); }" % (block * 40)
        found = self.assert_runs(source, "f", [list])
        self.assertEqual(body(found, "f").count("PyObject *x"), 1)

    def test_too_many_locals(self) -> None:
        names = ["x%d" % at for at in range(40)]
        lines = "".join("PyObject *%s = Py_NewRef(a); " % name for name in names)
        ends = "".join("Py_DECREF(%s); " % name for name in names)
        source = "PyObject *f(PyObject *a) { %s %s return Py_NewRef(a); }" % (lines, ends)
        self.assertIn("locals", prepared(source).functions[0].not_prepared)


def text(content: bytes) -> object:
    """An argument that is a text."""
    from preparation_runs import running
    return running.Text(content) if running is not None else content


if __name__ == "__main__":
    unittest.main()
