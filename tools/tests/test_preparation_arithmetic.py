"""Arithmetic: what Pungi follows stays as it is, and other results are any number."""

from __future__ import annotations

import unittest

from preparation_runs import PreparationCase, assumed, body, prepared
from with_program import ProgramCase

from pungi_module.findings import Word

#: A function that returns its argument where a condition on numbers holds, and None elsewhere.
TESTED = "PyObject *f(PyObject *a, long n, long m, int i) {{ if ({}) return Py_NewRef(a); Py_RETURN_NONE; }}"


class Arithmetic(PreparationCase):
    """What stands in the text for an arithmetic."""

    def test_followed(self) -> None:
        for condition in ("n + 1 > m", "2 + n == m - 3", "n - 1 < 0", "i + 1 > 3", "2 * 3 + n > m", "n == m",
                          "(n > 1) + (m > 1) * 3 == 4", "PyObject_IsTrue(a) * 2 == n"):
            with self.subTest(condition):
                found = self.assert_runs(TESTED.format(condition), "f", [list, 1, 2, 3])
                self.assertNotIn("pungi_any", body(found, "f"))
                self.assertEqual(assumed(found, "f"), set())

    def test_any_number(self) -> None:
        for condition in ("n * 2 > m", "-n == m", "n + m == 4", "n - m < 0", "1 - n > 0", "n / 2 == 0", "n % 2",
                          "i * i == 8", "(n & m) == 0", "n >> 1", "n << 1 == 2", "~n < 0"):
            with self.subTest(condition):
                found = self.assert_runs(TESTED.format(condition), "f", [list, 1, 2, 3])
                self.assertIn("pungi_any", body(found, "f"))

    def test_type_of_the_number(self) -> None:
        self.assertIn("pungi_any_int()", body(prepared(TESTED.format("-i > 1")), "f"))
        self.assertIn("pungi_any_long()", body(prepared(TESTED.format("i + n > 1")), "f"))

    def test_effects_stay_in_their_order(self) -> None:
        source = """long f(PyObject *a, PyObject *b, long n) { PyObject *x, *y;
            long r = (x = Py_NewRef(a), n) * (y = Py_NewRef(b), n + 1); Py_DECREF(y); return r; }"""
        text = body(self.assert_runs(source, "f", [list, list, 1], "long"), "f")
        self.assertLess(text.index("x = Py_NewRef(a)"), text.index("y = Py_NewRef(b)"))

    def test_compound_assignment(self) -> None:
        source = """PyObject *f(PyObject *a, long n, long m) {{
            {}; if (n > 1) return Py_NewRef(a); Py_RETURN_NONE; }}"""
        for statement, text in (("n += m", "n = pungi_any_long()"), ("n *= 2", "n = pungi_any_long()"),
                                ("n -= 2", "n -= 2"), ("n += 3", "n += 3")):
            with self.subTest(statement):
                found = self.assert_runs(source.format(statement), "f", [list, 2, 3])
                self.assertIn(text, body(found, "f"))

    def test_locals_that_hold_constants(self) -> None:
        source = """PyObject *f(PyObject *a, long n) { int sign = 1, by = 3, times; if (n < 0) sign = -1;
            times = sign * by; if (times + n > 2) return Py_NewRef(a); Py_RETURN_NONE; }"""
        for number in (-1, 0, 5):
            found = self.assert_runs(source, "f", [list, number])
        self.assertIn("sign * by", body(found, "f"))
        self.assertEqual(assumed(found, "f"), set())

    def test_locals_that_hold_other_numbers(self) -> None:
        source = """PyObject *f(PyObject *a, long n) { long by = 3, times; times = by; if (n < 0) by = n;
            times = by * 2; if (times > 1) return Py_NewRef(a); Py_RETURN_NONE; }"""
        found = self.assert_runs(source, "f", [list, 1])
        self.assertIn("times = pungi_any_long()", body(found, "f"))

    def test_assumption(self) -> None:
        found = prepared("""PyObject *f(PyObject *a, long n) {
            if (n
                * 2 > 3) return Py_NewRef(a);
            Py_RETURN_NONE; }""")
        named = [(a.name, a.detail, a.place.line) for a in found.functions[0].assumptions]
        self.assertEqual(named, [("any number", "*", 4)])

    def test_no_assumption_where_no_branch_depends_on_it(self) -> None:
        found = self.assert_runs("PyObject *f(PyObject *a, long n) { return PyLong_FromLong(n * 2); }", "f", [list, 2])
        self.assertEqual(assumed(found, "f"), set())


class WithTheProgram(ProgramCase):
    """What the program reports of arithmetic."""

    def test_words(self) -> None:
        found = self.words("""
            PyObject *product(PyObject *a, long n) { if (n * 2 > 7) return Py_NewRef(a); Py_RETURN_NONE; }
            PyObject *sums(PyObject *a, long n, long m) { n += m; if (-n > m / 2) return Py_NewRef(a); return NULL; }
            PyObject *lost(PyObject *a, long n) { Py_INCREF(a); if (n * 2 > 7) return a; Py_RETURN_NONE; }
            PyObject *before(PyObject *a, long n) {
                if (n < 0) { Py_INCREF(a); return NULL; }
                if (n * 2 > 7) return Py_NewRef(a);
                Py_RETURN_NONE; }
            PyObject *decided(PyObject *a, long n, long m) { int sure = (n > 1) + (m > 1) * 3;
                if (sure == 4 || PyObject_IsTrue(a) * 2 == 2) return Py_NewRef(a); Py_RETURN_NONE; }
            PyObject *constant(PyObject *a) { int two = 2; if (two * 3 != 6) Py_INCREF(a); Py_RETURN_NONE; }
            """)
        self.assertEqual(found, {
            "product": (Word.CLEAN, {"any number"}), "sums": (Word.CLEAN, {"any number"}),
            "lost": (Word.DOUBTFUL, {"any number"}), "before": (Word.FAULT, {"any number"}),
            "decided": (Word.CLEAN, set()), "constant": (Word.CLEAN, set()),
        })


if __name__ == "__main__":
    unittest.main()
