"""The life of objects: allocation, end, first stores, and the lines of the printed text."""

from __future__ import annotations

import unittest

from preparation_runs import HEAD, PreparationCase, assumed, body, prepared
from running import Instance
from with_program import ProgramCase
from pungi_module.convention_file import Declared
from pungi_module.findings import Word
from pungi_module.preparation.options import Options

TYPE = """
typedef struct { PyObject_HEAD PyObject *item; PyObject *weak; long n; } Box;
static int clear(Box *self) { Py_CLEAR(self->item); return 0; }
static void dealloc(Box *self) { PyTypeObject *tp = Py_TYPE(self); %s tp->tp_free((PyObject *)self); Py_DECREF(tp); }
static PyObject *make(PyTypeObject *type, PyObject *args, PyObject *keywords) {
    Box *self = (Box *)type->tp_alloc(type, 0); if (self == NULL) return NULL;
    self->item = PyList_New(0); self->weak = NULL; if (!self->item) { Py_DECREF(self); return NULL; }
    return (PyObject *)self; }
static int init(Box *self, PyObject *args, PyObject *keywords) { self->item = Py_NewRef(args); return 0; }
static PyType_Slot slots[] = { {Py_tp_dealloc, dealloc}, {Py_tp_clear, clear}, {Py_tp_new, make}, {Py_tp_init, init}, {0, NULL} };
"""


BOX = "typedef struct { PyObject_HEAD PyObject *item; } Box; "


class _Box:
    __slots__ = ("item",)


class Running(PreparationCase):
    """What making and freeing do to counts stays."""

    def test_new_object(self) -> None:
        made_by = ("(Box *)type->tp_alloc(type, 0)", "PyObject_GC_New(Box, type)")
        for call, first in zip(made_by, ("", "self->item = NULL;"), strict=True):
            source = BOX + """PyObject *f(PyTypeObject *type, PyObject *a) { Box *self = %s; if (!self) return NULL; %s
                if (a == Py_None) { Py_DECREF(self); return NULL; }
                self->item = Py_NewRef(a); return (PyObject *)self; }""" % (call, first)
            for made in (list, lambda: None):
                with self.subTest(call):
                    self.assertIn("new object", assumed(self.assert_runs(source, "f", [lambda: _Box, made]), "f"))

    def test_resized_object(self) -> None:
        source = """PyObject *f(PyTypeObject *t) { int i;
            PyTupleObject *x = PyObject_GC_NewVar(PyTupleObject, t, 30), *y; if (!x) return NULL;
            for (i = 0; i < 30; i++) x->ob_item[i] = NULL;
            y = PyObject_GC_Resize(PyTupleObject, x, 31); if (!y) { Py_DECREF(x); return NULL; }
            y->ob_item[30] = NULL; return (PyObject *)y; }"""
        self.assertIn("resized object", assumed(self.assert_runs(source, "f", [lambda: tuple]), "f"))

    def test_end_of_an_object(self) -> None:
        cleared = BOX + "void f(Box *self) { Py_CLEAR(self->item); Py_TYPE(self)->tp_free((PyObject *)self); }"
        forgotten = BOX + """void f(Box *self) {
            if (self->item == Py_None) Py_CLEAR(self->item); PyObject_Del(self); }"""
        for source in (cleared, forgotten):
            for item in (list, lambda: None):
                with self.subTest(source):
                    found = self.assert_runs(source, "f", [Instance((item,))], "void")
                    self.assertIn("end of an object", assumed(found, "f"))

    def test_init_runs_once(self) -> None:
        source = BOX + """static int f(Box *self, PyObject *args, PyObject *k) { self->item = Py_NewRef(args); return 0; }
            static PyType_Slot slots[] = { {Py_tp_init, f}, {0, NULL} };"""
        found = self.assert_runs(source, "f", [Instance((None,)), tuple, None], "int")
        self.assert_stops(found, "f", [Instance((list,)), tuple, None], "int")

    def test_call_implemented(self) -> None:
        source = """PyObject *f(PyObject *a) { PyObject *r = Py_NotImplemented; if (a == Py_None) r = PyList_New(0);
            if (r == Py_NotImplemented) Py_INCREF(r); return r; }"""
        for given in (list, lambda: None):
            self.assertIn("call implemented", assumed(self.assert_runs(source, "f", [given]), "f"))

    def test_filled_once(self) -> None:
        source = """static PyObject *one, *two; PyObject *f(void) {
            if (one == NULL) { one = PyList_New(0); two = PyList_New(0); } return Py_XNewRef(two); }"""
        self.assertIn("filled once", assumed(self.assert_runs(source, "f", []), "f"))


class Objects(unittest.TestCase):
    """What is made and freed."""

    def test_deallocator_gives_up_each_field(self) -> None:
        found = prepared(TYPE % "Py_CLEAR(self->item);")
        printed = body(found, "dealloc")
        self.assertIn("end of an object", assumed(found, "dealloc"))
        self.assertIn("->f_item = NULL", printed)
        self.assertIn("->t = NULL", printed)
        self.assertNotIn("f_weak", printed)

    def test_clear_stands_in_the_deallocator(self) -> None:
        printed = body(prepared(TYPE % "clear(self);"), "dealloc")
        self.assertIn("; clear(self); {", printed)
        in_place = prepared(TYPE % "clear(self);", Options(calls_as_rows=frozenset([("dealloc", "clear")])))
        self.assertIn("Py_XDECREF(self_2->f_item)", body(in_place, "dealloc"))

    def test_new_object_has_empty_fields(self) -> None:
        found = prepared(TYPE % "")
        printed = body(found, "make")
        self.assertIn("new object", assumed(found, "make"))
        self.assertIn("pungi_tp_alloc(type)", printed)
        self.assertIn("->f_item", printed.split("Py_NewRef(NULL)")[0])

    def test_init_runs_once(self) -> None:
        found = prepared(TYPE % "")
        self.assertIn("init runs once", assumed(found, "init"))
        self.assertIn("if (self->f_item) { Py_INCREF(NULL); } self->f_item = Py_NewRef(args)", body(found, "init"))

    def test_init_twice(self) -> None:
        found = prepared(TYPE % "", Options(init_twice=True))
        self.assertNotIn("Py_INCREF(NULL)", body(found, "init"))

    def test_second_store_has_no_stop(self) -> None:
        source = TYPE.replace("self->item = Py_NewRef(args); return", "self->item = Py_NewRef(args); self->item = args; return")
        self.assertEqual(body(prepared(source % ""), "init").count("Py_INCREF(NULL)"), 1)

    def test_store_in_a_loop_has_no_stop(self) -> None:
        source = TYPE.replace("self->item = Py_NewRef(args); return",
                              "while (PyList_Append(args, args) == 0) self->item = Py_NewRef(args); return")
        self.assertNotIn("Py_INCREF(NULL)", body(prepared(source % ""), "init"))

    def test_store_after_a_label_that_is_jumped_back_to_has_no_stop(self) -> None:
        source = TYPE.replace("self->item = Py_NewRef(args); return",
                              "again: self->item = Py_NewRef(args); if (PyList_Append(args, args)) goto again; return")
        self.assertNotIn("Py_INCREF(NULL)", body(prepared(source % ""), "init"))

    def test_reads_are_not_cut(self) -> None:
        """A stop must not stand before a read of what the function has not stored."""
        source = TYPE.replace("self->item = Py_NewRef(args); return", "Py_XDECREF(self->item); return")
        self.assertNotIn("Py_INCREF(NULL)", body(prepared(source % ""), "init"))

    def test_filled_once(self) -> None:
        source = """static PyObject *one, *two;
            PyObject *f(void) { if (one == NULL) { one = PyList_New(0); two = PyList_New(0); } return Py_XNewRef(two); }
            void g(void) { two = PyList_New(0); }"""
        found = prepared(source)
        self.assertIn("if (two) { Py_INCREF(NULL); }", body(found, "f"))
        self.assertEqual(assumed(found, "f"), {"filled once"})
        self.assertNotIn("Py_INCREF(NULL)", body(found, "g"))

    def test_borrowed_field(self) -> None:
        options = Options(borrowed_fields=frozenset({("Box", "item")}))
        self.assertNotIn("->f_item = NULL", body(prepared(TYPE % "", options), "dealloc"))


class WithTheProgram(ProgramCase):
    """What the program reports of fields, and of results."""

    def test_borrowed_field(self) -> None:
        source = """typedef struct { PyObject_HEAD PyObject *owner; } Box;
            int set(Box *self, PyObject *a) { self->owner = a; return 0; }
            int counted(Box *self, PyObject *a) { self->owner = Py_NewRef(a); return 0; }
            int exchanged(Box *self, PyObject *a) { PyObject *old = self->owner; self->owner = a; Py_XDECREF(old);
                return 0; }
            PyObject *get(Box *self) { PyObject *x = self->owner; if (!x) Py_RETURN_NONE; Py_INCREF(x); return x; }"""
        declared = Declared(borrowed_fields={"Box": frozenset({"owner"})})
        found = {name: word for name, (word, _) in self.words(source, declared).items()}
        self.assertEqual(found, {"set": Word.CLEAN, "counted": Word.FAULT, "exchanged": Word.FAULT, "get": Word.CLEAN})
        self.assertEqual(self.words(source)["set"][0], Word.FAULT)

    def test_call_implemented(self) -> None:
        found = self.words("""
            PyObject *fine(PyObject *a) { PyObject *r = Py_NotImplemented; if (a == Py_None) r = PyList_New(0);
                if (r == Py_NotImplemented) Py_INCREF(r); return r; }
            PyObject *uncounted(PyObject *a) { PyObject *r = Py_NotImplemented; if (a == Py_None) r = PyList_New(0);
                if (r == Py_NotImplemented) return r; return r; }
            PyObject *lost(PyObject *a) { PyObject *r = Py_NotImplemented; if (a == Py_None) r = PyList_New(0);
                if (r == Py_NotImplemented) Py_INCREF(r); return Py_XNewRef(r); }""")
        self.assertEqual({name: word for name, (word, _) in found.items()},
                         {"fine": Word.CLEAN, "uncounted": Word.FAULT, "lost": Word.FAULT})


class Text(unittest.TestCase):
    """The printed text as a whole."""

    SOURCE = """int first(int n)
{
    return n;
}

PyObject *
second(PyObject *a, PyObject *b)
{
    if (PyList_Append(a,
                      b) < 0)
        return NULL;
    return Py_NewRef(b);
}
"""

    def test_lines_are_kept(self) -> None:
        found = prepared(self.SOURCE)
        start = HEAD.count("\n")
        lines = found.text.split("\n")
        second = next(item for item in found.functions if item.name == "second")
        self.assertEqual(second.place.line, start + 7)
        self.assertEqual(second.printed_line, start + 7)
        self.assertIn("second(", lines[start + 6])
        self.assertIn("PyList_Append", lines[start + 8])

    def test_places(self) -> None:
        found = prepared(self.SOURCE)
        line = HEAD.count("\n") + 9
        column = found.text.split("\n")[line - 1].index("PyList_Append") + 1
        place = found.place_of(line, column)
        self.assertIsNotNone(place)
        self.assertEqual((place.line, place.column), (line, 9))

    def test_function_that_does_not_parse(self) -> None:
        source = "int f(int n) { return n @ 2; }\nint g(int n) { return n; }\n"
        found = {item.name: item.not_prepared for item in prepared(source).functions}
        self.assertIsNone(found["g"])
        self.assertIsNotNone(found["f"])

    def test_function_that_the_program_refused(self) -> None:
        source = "static PyObject *f(PyObject *a) { return Py_NewRef(a); } PyObject *g(PyObject *a) { return f(a); }"
        found = prepared(source, Options(refused={"f": "N15"}))
        self.assertIn("default row for a function of the file", assumed(found, "g"))
        self.assertNotIn(" *f(", found.text)


if __name__ == "__main__":
    unittest.main()
