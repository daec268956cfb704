"""Calls: outputs, formats, own functions and rows."""

from __future__ import annotations

import ctypes
import unittest
from collections.abc import Iterator
from contextvars import ContextVar

from preparation_runs import PreparationCase, assumed, body, prepared
from running import Array, Text
from with_program import ProgramCase

from pungi_module.findings import Word
from pungi_module.convention_file import Convention
from pungi_module.model import OwnConvention
from pungi_module.preparation.options import Options
from pungi_module.rows import Output


class Calls(PreparationCase):
    """What a call does to counts stays."""

    def test_error_is_fetched_and_restored(self) -> None:
        source = """PyObject *f(PyObject *a) { PyObject *t, *v, *b; PyErr_SetString(PyExc_ValueError, "x");
            PyErr_Fetch(&t, &v, &b); Py_INCREF(a); PyErr_Restore(t, v, b); PyErr_Clear(); return a; }"""
        self.assert_runs(source, "f", [list])

    def test_parse_tuple(self) -> None:
        source = """PyObject *f(PyObject *self, PyObject *args) { PyObject *a, *b = NULL; int n = 0; const char *s;
            if (!PyArg_ParseTuple(args, "Os|iO:f", &a, &s, &n, &b)) return NULL;
            if (b) return Py_NewRef(Py_True); return Py_NewRef(n == 2 ? Py_False : Py_None); }"""
        for given in ((), ([], "x"), ([], "x", 2), ([], "x", 2, [])):
            self.assert_runs(source, "f", [None, lambda given=given: given])

    def test_parse_keywords(self) -> None:
        source = """PyObject *f(PyObject *args, PyObject *keywords) { static char *names[] = {"a", "b", NULL};
            PyObject *a, *b = NULL;
            if (!PyArg_ParseTupleAndKeywords(args, keywords, "O|O", names, &a, &b)) return NULL;
            return Py_NewRef(b ? Py_True : Py_None); }"""
        found = self.assert_runs(source, "f", [lambda: ([], []), None])
        self.assertIn("keywords", assumed(found, "f"))

    def test_unpack_tuple(self) -> None:
        source = """PyObject *f(PyObject *args) { PyObject *a, *b = NULL;
            if (!PyArg_UnpackTuple(args, "f", 1, 2, &a, &b)) return NULL; return Py_NewRef(b ? Py_True : Py_None); }"""
        self.assert_runs(source, "f", [lambda: ([],)])
        self.assert_runs(source, "f", [lambda: ([], [], [])])

    def test_build_value_takes_over(self) -> None:
        source = """PyObject *f(PyObject *a, PyObject *b) { Py_INCREF(a); return Py_BuildValue("(NOi)", a, b, 3); }"""
        self.assertIn("takes", str(prepared(source).rows))
        found = prepared(source)
        row = next(row for name, row in found.rows.items() if "BuildValue" in name)
        self.assertEqual(row.takes, (1,))
        self.assert_runs(source, "f", [list, list])

    def test_call_with_a_format_takes_over(self) -> None:
        source = """PyObject *f(PyObject *a, PyObject *b) { Py_INCREF(b); return PyObject_CallFunction(a, "N", b); }"""
        for made in (lambda: str, list):
            self.assert_runs(source, "f", [made, list])

    def test_format_that_is_no_constant(self) -> None:
        source = "PyObject *f(PyObject *a, const char *s) { return Py_BuildValue(s, a); }"
        self.assertIn("format", assumed(self.assert_runs(source, "f", [list, Text(b"(O)")]), "f"))

    def test_format_error_returns_null(self) -> None:
        source = """PyObject *f(PyObject *a) { return PyErr_Format(PyExc_ValueError, "%R", a); }"""
        self.assert_runs(source, "f", [list])

    def test_iterator_that_returns_gives_a_reference(self) -> None:
        source = """PyObject *f(PyObject *it) { PyObject *out; PySendResult sent = PyIter_Send(it, Py_None, &out);
            if (sent == PYGEN_ERROR) { PyErr_Clear(); return Py_NewRef(out ? Py_True : Py_False); }
            if (sent == PYGEN_RETURN) { Py_DECREF(out); return Py_NewRef(Py_None); }
            Py_DECREF(out); return Py_NewRef(it); }"""
        for made in (returning, lambda: (x for x in ([],)), lambda: map(int, ["x"])):
            with self.subTest(made):
                self.assert_runs(source, "f", [made])

    def test_dictionary_loop(self) -> None:
        source = """PyObject *f(PyObject *d) { Py_ssize_t at = 0; PyObject *k, *v, *last = Py_None;
            while (PyDict_Next(d, &at, &k, &v)) { last = v; } return Py_NewRef(last); }"""
        self.assert_runs(source, "f", [dict])

    def test_output_parameter(self) -> None:
        source = "int f(PyObject *a, PyObject **out) { *out = Py_NewRef(a); return 0; }"
        found = self.assert_runs(source, "f", [list, Array((None,))], "int")
        self.assertIn("output parameter", assumed(found, "f"))
        self.assertIn("out->i0 = Py_NewRef(a)", body(found, "f"))
        self.assert_stops(found, "f", [list, Array((list,))], "int")

    def test_parameter_that_is_cleared_or_set(self) -> None:
        source = """int f(PyObject *a, PyObject **out) { if (a == NULL) { Py_DECREF(*out); *out = NULL; return 1; }
            *out = Py_NewRef(a); return 2; }
            int g(PyObject *a, PyObject **out) { if (*out) Py_INCREF(a); *out = a; return 0; }
            int h(PyObject *a, PyObject **out) { PyObject *old; if (f(a, out) < 0) return -1; old = *out; *out = a;
                Py_XDECREF(old); return 0; }"""
        found = prepared(source)
        self.assertEqual([assumed(found, name) & {"output parameter"} for name in "fgh"],
                         [{"output parameter"}, set(), set()])
        self.assertIn("Py_DECREF(out->i0); out->i0 = NULL;", body(found, "f"))
        self.assertIn("if (out->i0) { Py_INCREF(NULL); } out->i0 = Py_NewRef(a);", body(found, "f"))

    def test_own_callee_is_a_row(self) -> None:
        source = """static PyObject *helper(PyObject *a) { return PyList_New(0); }
            PyObject *f(PyObject *a) { PyObject *x = helper(a); if (!x) return NULL; Py_DECREF(x); return helper(a); }"""
        found = self.assert_runs(source, "f", [list])
        self.assertIn("x = helper(a)", body(found, "f"))
        self.assertEqual(assumed(found, "f"), set())
        self.assertEqual([item.calls for item in found.functions if item.name == "f"], [["helper"]])
        found = prepared(source, Options(calls_as_rows=frozenset([("f", "helper")])))
        self.assertIn("callee as a row", assumed(found, "f"))
        self.assertEqual([item.calls for item in found.functions if item.name == "f"], [["helper"]])
        self.assertEqual(found.rows["pungi_call_helper"].result, "new")

    def test_own_callee_in_which_nothing_happens(self) -> None:
        source = """static int helper(PyObject *a) { return PyList_Append(a, a) < 0 ? -1 : 0; }
            static int other(PyObject *a, int n) { if (n * n || PyList_Append(a, a) < 0) return -1; return 0; }
            int f(PyObject *a) { return helper(a) + other(a, 1); }"""
        found = prepared(source)
        self.assertEqual(found.rows["pungi_call_other"].result, "status")
        self.assertEqual(assumed(found, "f"), assumed(found, "other"))

    def test_what_a_callee_rests_on(self) -> None:
        source = """PyObject *far(void); static PyObject *helper(void) { return far(); }
            PyObject *f(void) { return helper(); } PyObject *g(void) { return f(); }"""
        found = prepared(source)
        self.assertEqual([assumed(found, name) for name in ("helper", "f", "g")], [{"default row"}] * 3)

    def test_callee_that_changes_fields(self) -> None:
        source = """typedef struct { PyObject_HEAD PyObject *item; } Box;
            static int clear(Box *self) { Py_CLEAR(self->item); return 0; }
            PyObject *f(Box *self) { if (clear(self) < 0) return NULL; Py_RETURN_NONE; }"""
        found = self.assert_runs(source, "f", [box])
        self.assertEqual(assumed(found, "f"), set())
        self.assertIn("clear(self) < 0", body(found, "f"))
        self.assertIn("Py_XDECREF(self_2->f_item)",
                      body(prepared(source, Options(calls_as_rows=frozenset([("f", "clear")]))), "f"))

    def test_number_that_a_callee_sets(self) -> None:
        source = """static PyObject *helper(PyObject *a, int *n) { *n = 3; return Py_NewRef(a); }
            PyObject *f(PyObject *a) { int n = 0; PyObject *x = helper(a, &n); if (n == 3) return x; return x; }"""
        self.assertIn('n = pungi_any_int()) ? NULL : helper(a, "")', body(prepared(source), "f"))

    def test_calls_that_do_not_stay(self) -> None:
        chain = "static PyObject *f0(void) { return PyList_New(0); }" + "".join(
            f"static PyObject *f{at}(void) {{ return f{at - 1}(); }}" for at in range(1, 6))
        found = prepared(chain)
        self.assertEqual([assumed(found, f"f{at}") for at in range(6)],
                         [set()] * 4 + [{"callee as a row"}] * 2)
        self.assertIn("f4()", body(found, "f5"))
        source = """static PyObject *round(int n) { if (n > 0) return round(n - 1); return PyList_New(0); }
            static int set(PyObject *a, PyObject **x) { Py_XSETREF(*x, Py_NewRef(a)); return 0; }
            PyObject *f(PyObject *a) { PyObject *x = NULL; if (set(a, &x) < 0) return NULL; return x; }
            void done(PyObject *a) { Py_INCREF(a); Py_DECREF(a); }
            PyObject *g(PyObject *a) { return a ? (done(a), Py_NewRef(a)) : NULL; }
            PyObject *h(PyObject *a) { return round(3); }"""
        found = prepared(source)
        self.assertIn("pungi_call_round(", body(found, "round"))
        self.assertIn("output of a function of the file", assumed(found, "f"))
        self.assertIn("pungi_call_done", body(found, "g"))
        self.assertIn("return round(3)", body(found, "h"))
        said = Options({"round": Convention("round", "borrowed")})
        self.assertIn("pungi_call_round", body(prepared(source, said), "h"))

    def test_callee_of_an_initialiser(self) -> None:
        source = """static PyObject *kept; static void fill(void) { Py_XSETREF(kept, PyList_New(0)); }
            PyObject *get(void) { fill(); return Py_XNewRef(kept); }
            PyMODINIT_FUNC PyInit_x(void) { fill(); kept = PyList_New(0); return NULL; }"""
        found = prepared(source)
        self.assertNotIn("Py_INCREF(NULL)", body(found, "PyInit_x"))
        only = source.replace("PyObject *get(void) { fill(); return Py_XNewRef(kept); }", "")
        only = only.replace("Py_XSETREF(kept, PyList_New(0))", "kept = PyList_New(0)")
        self.assertIn("init runs once", assumed(prepared(only), "fill"))
        self.assertNotIn("; fill()", body(prepared(only), "PyInit_x"))

    def test_declared_conventions(self) -> None:
        source = """PyObject *keep(PyObject *a) { Py_DECREF(a); return Py_None; }
            PyObject *f(PyObject *a) { Py_INCREF(a); return Py_NewRef(keep(a)); }"""
        options = Options(conventions={"keep": Convention("keep", "borrowed", (1,))})
        found = prepared(source, options)
        self.assertEqual(body(found, "keep"), "{ Py_DECREF(a); return Py_None; }")
        self.assertEqual(found.conventions, {"keep": OwnConvention(True, (1,))})
        row = found.rows["pungi_call_keep"]
        self.assertEqual((row.result, row.takes), ("borrowed", (1,)))
        self.assertIn("declared", assumed(found, "f"))

    def test_declared_conventions_that_do_not_fit(self) -> None:
        source = "int keep(double d, PyObject *a, int n, PyObject *b) { Py_DECREF(b); return 0; }"
        found = prepared(source, Options({"keep": Convention("keep", "borrowed", (1, 3, 4, 5))}))
        self.assertIn("keep(PyObject *a, int n, PyObject *b)", found.text)
        self.assertEqual(found.conventions, {"keep": OwnConvention(takes=(3,))})
        self.assertEqual(found.parameters, {"keep": (2, 3, 4)})

    def test_result_without_a_count(self) -> None:
        source = """typedef struct { PyObject *kept; } State;
            static State *state_of(PyObject *module) { return (State *)PyModule_GetState(module); }
            PyObject *f(PyObject *module) { return Py_XNewRef(state_of(module)->kept); }"""
        found = prepared(source)
        self.assertEqual(found.conventions, {"state_of": OwnConvention(returns_borrowed=True)})
        self.assertNotIn("Py_XNewRef", body(found, "state_of"))

    def test_declared_convention_of_another_file(self) -> None:
        source = "PyObject *keep(PyObject *a); PyObject *f(PyObject *a) { return Py_XNewRef(keep(Py_NewRef(a))); }"
        elsewhere = "PyObject *keep(PyObject *a) { Py_DECREF(a); return (PyObject *)&PyList_Type; }"
        options = Options(conventions={"keep": Convention("keep", "borrowed", (1,))})
        found = self.assert_runs(source, "f", [list], options=options, elsewhere=elsewhere)
        self.assertEqual(assumed(found, "f"), {"declared"})

    def test_declared_outputs(self) -> None:
        source = """int find(PyObject *a, PyObject **out);
            PyObject *f(PyObject *a) { PyObject *x = NULL; if (find(a, &x) < 0) return NULL; %s }"""
        elsewhere = "int find(PyObject *a, PyObject **out) { *out = %s; return 0; }"
        for left, printed, made, used in (
            (Output.BORROWED, "x = pungi_any_sure()", "(PyObject *)&PyList_Type", "Py_XINCREF(x); return x;"),
            (Output.NEW, "x = pungi_any_new()", "PyList_New(0)", "return x;"),
        ):
            options = Options(conventions={"find": Convention("find", outputs={2: left})})
            found = self.assert_runs(source % used, "f", [list], options=options, elsewhere=elsewhere % made)
            self.assertIn(printed, body(found, "f"))
            self.assertEqual(assumed(found, "f"), {"declared"})

    def test_own_callee_with_an_output(self) -> None:
        source = """static PyObject *kept;
            static int helper(PyObject *a, PyObject **out) { kept = NULL; *out = PyList_New(0); return 0; }
            PyObject *f(PyObject *a) { PyObject *x = NULL; if (helper(a, &x) < 0) return NULL; return x; }"""
        found = self.assert_runs(source, "f", [list])
        self.assertEqual(assumed(found, "f"), {"callee with effects as a row", "output of a function of the file"})

    def test_call_through_a_pointer(self) -> None:
        source = """PyObject *f(PyObject *a, PyObject *(*g)(PyObject *)) { PyObject *x = g(a); if (!x) return NULL;
            Py_DECREF(x); return Py_NewRef(a); }"""
        address = ctypes.cast(ctypes.pythonapi.PyObject_Repr, ctypes.c_void_p).value
        self.assertIn("call through a pointer", assumed(self.assert_runs(source, "f", [list, address]), "f"))

    def test_guessed_output(self) -> None:
        source = """int other(PyObject *, PyObject **); PyObject *f(PyObject *a) { PyObject *x = NULL;
            if (other(a, &x) < 0) return NULL; return x ? Py_NewRef(a) : NULL; }"""
        elsewhere = "int other(PyObject *a, PyObject **out) { *out = a; return 0; }"
        self.assertIn("output guessed", assumed(self.assert_runs(source, "f", [list], elsewhere=elsewhere), "f"))

    def test_unknown_function(self) -> None:
        source = "PyObject *other(PyObject *); PyObject *f(PyObject *a) { return other(a); }"
        elsewhere = "PyObject *other(PyObject *a) { return PyObject_Repr(a); }"
        found = self.assert_runs(source, "f", [list], elsewhere=elsewhere)
        self.assertIn("default row", assumed(found, "f"))
        self.assertEqual(found.rows["other"].result, "new")

    def test_check_of_a_type_goes_two_ways(self) -> None:
        source = """PyObject *f(PyObject *a) { if (PyLong_Check(a) && !PyBool_Check(a)) Py_RETURN_NONE;
            return Py_NewRef(a); }"""
        for made in (lambda: 3, lambda: True, list):
            found = self.assert_runs(source, "f", [made])
        self.assertIn("!pungi_PyLong_Check(a)", body(found, "f"))
        self.assertEqual(found.rows["pungi_PyLong_Check"].result, "status")

    def test_wide_rows(self) -> None:
        source = """PyObject *f(PyObject *a) { int over; long n; void *p = PyMem_Malloc(3); if (!p) return NULL;
            PyMem_Free(p); n = PyLong_AsLongAndOverflow(a, &over); if (over || n > 1) return NULL;
            return Py_NewRef(a); }"""
        for number in (1, 2 ** 80):
            found = self.assert_runs(source, "f", [lambda: number])
        self.assertEqual(assumed(found, "f"), set())

    def test_output_that_is_null_where_the_call_fails(self) -> None:
        source = """PyObject *f(PyObject *a) { PyObject *out = NULL; if (PyContextVar_Get(a, NULL, &out) < 0) {
            PyErr_Clear(); return out ? Py_NewRef(out) : Py_NewRef(a); } Py_XDECREF(out); return Py_NewRef(a); }"""
        self.assert_runs(source, "f", [lambda: ContextVar("v")])
        self.assert_runs(source, "f", [lambda: 3])

    def test_more_arguments_than_a_row_has(self) -> None:
        source = """PyObject *f(PyObject *a) { return PyTuple_Pack(9, a, a, a, a, a, a, a, a, a); }"""
        self.assertIsNone(prepared(source).functions[0].not_prepared)

    def test_name_known_to_the_program_is_no_row(self) -> None:
        source = """PyObject *f(PyObject *a) { return PyObject_CallFunctionObjArgs(a, a, NULL); }"""
        self.assertEqual(list(prepared(source).rows), ["pungi_PyObject_CallFunctionObjArgs"])

    def test_stop(self) -> None:
        source = """PyObject *f(PyObject *a) { if (a == Py_None) Py_FatalError("none"); return Py_NewRef(a); }"""
        self.assert_runs(source, "f", [list])
        source = """#include <setjmp.h>
            jmp_buf back; PyObject *f(PyObject *a) { if (a == Py_None) longjmp(back, 1); return Py_NewRef(a); }"""
        self.assert_stops(self.assert_runs(source, "f", [list]), "f", [lambda: None])


def returning() -> Iterator[object]:
    """A generator that returns a list before it gives anything."""
    return []
    yield


class WithTheProgram(ProgramCase):
    """What the program reports of calls."""

    def test_parameter_that_is_cleared_or_set(self) -> None:
        found = self.words("""int f(PyObject *a, PyObject **out) {
                if (a == NULL) { Py_DECREF(*out); *out = NULL; return 1; } *out = Py_NewRef(a); return 2; }
            int g(PyObject *a, PyObject **out) { if (a == NULL) Py_XDECREF(*out); *out = Py_XNewRef(a); return 0; }
            """)
        self.assertEqual({name: word for name, (word, _) in found.items()}, {"f": Word.CLEAN, "g": Word.FAULT})


class _Box:
    __slots__ = ("item",)


def box() -> object:
    """An object with one field."""
    made = _Box()
    made.item = []
    return made


if __name__ == "__main__":
    unittest.main()
