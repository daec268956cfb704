"""Expressions: each construct, original and prepared, run in this Python."""

from __future__ import annotations

from preparation_runs import PreparationCase, assumed, body
from running import Array


class Expressions(PreparationCase):
    """What an expression does to counts stays."""

    def test_comma_keeps_the_order(self) -> None:
        source = """PyObject *f(PyObject *a, PyObject *b) {
            PyObject *x; return (x = Py_NewRef(a), Py_DECREF(x), Py_NewRef(b)); }"""
        self.assert_runs(source, "f", [list, list])

    def test_choice_with_effects(self) -> None:
        source = """PyObject *f(PyObject *a, PyObject *b) {
            double d = a ? 1.5 : 2.5; return d > 2 ? Py_NewRef(a) : Py_NewRef(b); }"""
        self.assert_runs(source, "f", [list, list])

    def test_logic_is_short(self) -> None:
        source = """int f(PyObject *a, int n) { return n && PyList_Append(a, Py_None) == 0 || n > 7; }"""
        self.assert_runs(source, "f", [list, 0], "int")
        self.assert_runs(source, "f", [list, 1], "int")

    def test_steps_and_compound_assignment(self) -> None:
        source = "long f(long n) { long m = n++; m += 4; m -= 2; ++m; return m; }"
        found = self.assert_runs(source, "f", [5], "long")
        self.assertIn("+= 4", body(found, "f"))

    def test_unsigned_and_bits_are_any_number(self) -> None:
        source = """PyObject *f(PyObject *a, long n) {
            unsigned long u = (unsigned long)n >> 3; unsigned char c = n & 7;
            if (u > 3 || c == 2) return Py_NewRef(a); Py_RETURN_NONE; }"""
        self.assert_runs(source, "f", [list, 2])
        self.assert_runs(source, "f", [list, 64])
        self.assert_runs(source, "f", [list, 1])

    def test_comparison_with_unsigned_is_a_choice(self) -> None:
        source = "int f(Py_ssize_t n) { return (size_t)n < 5; }"
        found = self.assert_runs(source, "f", [-1], "int")
        self.assertIn("choice", body(found, "f"))

    def test_floats_and_sizeof(self) -> None:
        source = """PyObject *f(PyObject *a) { double d = PyFloat_AsDouble(a);
            if (d == -1.0 && PyErr_Occurred()) return NULL;
            return PyLong_FromLong((long)(d * sizeof(int))); }"""
        self.assert_runs(source, "f", [lambda: 2.5])
        self.assert_runs(source, "f", [lambda: "x"])

    def test_text_pointers(self) -> None:
        source = """PyObject *f(PyObject *a) { const char *s = PyUnicode_AsUTF8(a);
            if (s == NULL) return NULL; while (*s == ' ') s++; return PyUnicode_FromString(s + 1); }"""
        self.assert_runs(source, "f", [lambda: "  word"])
        self.assert_runs(source, "f", [lambda: 3])

    def test_conditional_pointer(self) -> None:
        source = """PyObject *f(PyObject *a, PyObject *b) { PyObject *c = a == Py_None ? b : 0;
            Py_XINCREF(c); return c; }"""
        self.assert_runs(source, "f", [lambda: None, list])
        self.assert_runs(source, "f", [list, list])

    def test_elements_of_arguments(self) -> None:
        source = """PyObject *f(PyObject *const *args, Py_ssize_t n) { if (n < 2) Py_RETURN_NONE;
            Py_INCREF(args[1]); return args[1]; }"""
        self.assert_runs(source, "f", [Array((list, list)), 2])

    def test_address_that_is_followed_at_once(self) -> None:
        source = """typedef struct { PyObject *o; } Pair;
            PyObject *f(PyObject *a, PyObject *b) { PyObject *x = NULL; Pair p; *(&x) = Py_NewRef(a); (*(&p)).o = b;
                Py_DECREF(*(&x)); x = (*(&p)).o; return Py_NewRef(*&x); }"""
        found = self.assert_runs(source, "f", [list, list])
        self.assertNotIn("pungi", body(found, "f"))

    def test_cast_between_objects(self) -> None:
        source = """typedef struct { PyObject_HEAD PyObject *item; } Box;
            PyObject *f(PyObject *self) { Box *box = (Box *)self; return Py_NewRef((PyObject *)box); }"""
        self.assert_runs(source, "f", [list])

    def test_void_pointer_and_back(self) -> None:
        source = "PyObject *f(PyObject *a) { return Py_NewRef((PyObject *)(void *)a); }"
        found = self.assert_runs(source, "f", [list])
        self.assertEqual(assumed(found, "f"), set())


class Fields(PreparationCase):
    """Fields of objects are slots."""

    SOURCE = """typedef struct { PyObject_HEAD PyObject *item; } Box;
        PyObject *get(Box *self) { return Py_XNewRef(self->item); }
        PyObject *set(Box *self, PyObject *v) { Py_INCREF(v); Py_XSETREF(self->item, v); Py_RETURN_NONE; }
        PyObject *clear(Box *self) { Py_CLEAR(self->item); Py_RETURN_NONE; }
        PyObject *swap(Box *self, PyObject *v) { PyObject *old = self->item;
            self->item = Py_NewRef(v); return old ? old : Py_NewRef(Py_None); }
    """

    @staticmethod
    def box() -> object:
        """An object with one field."""
        made = _Box()
        made.item = []
        return made

    def test_fields(self) -> None:
        for name, more in (("get", []), ("set", [list]), ("clear", []), ("swap", [list])):
            with self.subTest(name):
                self.assert_runs(self.SOURCE, name, [self.box] + more)

    def test_clear_of_a_local(self) -> None:
        source = """PyObject *f(PyObject *a) { PyObject *x = Py_NewRef(a); Py_CLEAR(x);
            return x ? x : Py_NewRef(a); }"""
        self.assert_runs(source, "f", [list])


class _Box:
    __slots__ = ("item",)


if __name__ == "__main__":
    import unittest
    unittest.main()
