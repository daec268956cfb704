"""The same functions with objects that are made, in the place of some parts. Their fields are written before they are read: to read
one before stops a run of the meaning, and can't be seen in one of a compiler's program."""
import re

from varied import replaced

# What has to be declared besides.
TYPE = "static PyTypeObject BoxType = { 1 };"

# What may stand in the place of a part, V being the local in it.
PARTS = [
    (re.compile(r"PyObject \*(?P<v>v\d+) = (?:PyList_New\(0\)|PyDict_New\(\)|PyObject_(?:Str|Repr)\([xy]\)|PyDict_(?:Keys|Values|Items)\(d\)|PyUnicode_FromString\(\"a text\"\)|PyBytes_FromString\(\"a text\"\)|PyLong_FromLong\([^;]*\));"), [
        "PyObject *V = (PyObject *)PyObject_New(Box, &BoxType); if (V != NULL) ((Box *)V)->first = NULL;",
        "PyObject *V = (PyObject *)PyObject_New(Box, &BoxType); if (V != NULL) { ((Box *)V)->first = Py_XNewRef(x); ((Box *)V)->size = n; }",
        "Box *wV = PyObject_New(Box, &BoxType); PyObject *V = (PyObject *)wV; if (wV != NULL) { wV->first = Py_XNewRef(y); if (wV->first == y) Py_CLEAR(wV->first); }",
        "Box *wV = PyObject_New(Box, &BoxType); PyObject *V = (PyObject *)wV; if (wV != NULL) { wV->first = NULL; if (wV == b) Py_INCREF(x); }",
        "Box *wV = PyObject_New(Box, &BoxType); PyObject *V = (PyObject *)wV; if (wV != NULL) { wV->size = k; wV->first = kept; Py_XINCREF(kept); if (V == x) Py_INCREF(y); }",
    ]),
    (re.compile(r"PyObject \*(?P<v>v\d+) = (?:b->first|kept);"), [
        "PyObject *V = NULL; Box *wV = PyObject_New(Box, &BoxType); if (wV != NULL) { wV->first = NULL; V = kept; if (V == (PyObject *)wV) Py_INCREF(x); Py_DECREF(wV); }",
        "PyObject *V = NULL; Box *wV = PyObject_New(Box, &BoxType); if (wV != NULL) { wV->first = x; Py_XINCREF(x); V = wV->first; Py_CLEAR(wV->first); Py_DECREF(wV); }",
    ]),
]


def making(body, rng):
    """A body with half of such parts replaced."""
    return replaced(PARTS, body, rng)
