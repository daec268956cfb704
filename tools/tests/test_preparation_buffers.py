"""Py_buffer: the reference that a local one holds."""

from __future__ import annotations

import unittest

from preparation_runs import PreparationCase, assumed, body, prepared
from with_program import ProgramCase

from pungi_module.findings import Word

SOURCE = """
    static PyObject *work(Py_buffer *b) { return PyBytes_FromStringAndSize(b->buf, b->len); }
    static PyObject *held(Py_buffer *b) { return PyMemoryView_FromBuffer(b); }
    PyObject *copy(PyObject *a) { Py_buffer view; PyObject *r;
        if (PyObject_GetBuffer(a, &view, PyBUF_SIMPLE) < 0) { PyErr_Clear(); Py_RETURN_NONE; }
        r = PyBytes_FromStringAndSize(view.buf, view.len); PyBuffer_Release(&view); return r; }
    PyObject *parsed(PyObject *args) { Py_buffer view = {NULL, NULL}; PyObject *r = NULL;
        if (!PyArg_ParseTuple(args, "y*:parsed", &view)) goto exit;
        r = work(&view);
      exit: if (view.obj) PyBuffer_Release(&view); return r; }
    PyObject *passed(PyObject *a) { Py_buffer view; PyObject *r;
        if (PyObject_GetBuffer(a, &view, PyBUF_SIMPLE) < 0) return NULL;
        r = held(&view); PyBuffer_Release(&view); return r; }
    PyObject *zeroed(PyObject *a, int n) { Py_buffer view; memset(&view, 0, sizeof view);
        if (n && PyObject_GetBuffer(a, &view, PyBUF_SIMPLE) < 0) return NULL;
        PyBuffer_Release(&view); Py_RETURN_NONE; }
    PyObject *lost(PyObject *a) { Py_buffer view; if (PyObject_GetBuffer(a, &view, PyBUF_SIMPLE) < 0) return NULL;
        if (view.len > 1) return NULL; PyBuffer_Release(&view); Py_RETURN_NONE; }
    PyObject *twice(PyObject *a) { Py_buffer view; if (PyObject_GetBuffer(a, &view, PyBUF_SIMPLE) < 0) return NULL;
        PyBuffer_Release(&view); PyBuffer_Release(&view); Py_RETURN_NONE; }
    PyObject *elsewhere(PyObject *a, Py_buffer **out) { Py_buffer view; *out = &view;
        if (PyObject_GetBuffer(a, &view, PyBUF_SIMPLE) < 0) return NULL; Py_RETURN_NONE; }
"""


class Buffers(PreparationCase):
    """What a local Py_buffer does to counts stays."""

    def test_runs(self) -> None:
        for name, makers in (("copy", (lambda: b"abc", list)), ("parsed", (lambda: (b"abc",), lambda: (3,))),
                             ("passed", (lambda: b"ab",)), ("lost", (lambda: b"a",)), ("twice", (lambda: b"ab",))):
            for made in makers:
                with self.subTest(name):
                    self.assert_runs(SOURCE, name, [made])
        for number in (0, 1):
            self.assert_runs(SOURCE, "zeroed", [lambda: b"abc", number])

    def test_a_buffer_that_another_call_gets(self) -> None:
        found = prepared(SOURCE)
        self.assertEqual({name: "buffer passed on" in assumed(found, name) for name in ("copy", "parsed", "passed")},
                         {"copy": False, "parsed": False, "passed": True})

    def test_a_buffer_whose_address_is_stored_is_not_followed(self) -> None:
        self.assertNotIn("view", body(prepared(SOURCE), "elsewhere"))

    def test_converter_of_the_module(self) -> None:
        source = """static int convert(PyObject *o, PyObject **out) { *out = Py_NewRef(o); return 1; }
            PyObject *f(PyObject *args) { PyObject *a = NULL;
                if (!PyArg_ParseTuple(args, "O&", convert, &a)) return NULL;
                Py_DECREF(a); Py_RETURN_NONE; }"""
        found = self.assert_runs(source, "f", [lambda: ([],)])
        self.assertIn("pungi_any_new()", body(found, "f"))


class WithTheProgram(ProgramCase):
    """What the program reports of buffers."""

    def test_words(self) -> None:
        found = {name: word for name, (word, _) in self.words(SOURCE).items()}
        self.assertEqual(found, {
            "work": Word.CLEAN, "held": Word.CLEAN, "copy": Word.CLEAN, "parsed": Word.CLEAN, "passed": Word.CLEAN,
            "zeroed": Word.CLEAN,
            "lost": Word.FAULT, "twice": Word.CLEAN, "elsewhere": Word.CLEAN})


if __name__ == "__main__":
    unittest.main()
