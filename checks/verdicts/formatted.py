"""The same functions with tuples that are taken apart, dicts that are stepped through, and values that are built by formats, in the
place of some parts."""
import re

from varied import replaced

# What may stand in the place of a part, V being the local in it. (Small numbers are objects that the interpreter shares, so
# none is put into a value.)
PARTS = [
    (re.compile(r"PyObject \*(?P<v>v\d+) = (?:PyList_GetItem\(l, 1\)|PyDict_GetItem\w*\([^;]*\)|PyModule_GetDict\(m\)|kept);"), [
        'PyObject *V = NULL; PyArg_ParseTuple(m, "O", &V);',
        'PyObject *V = NULL; int iV; if (!PyArg_ParseTuple(m, "Oi:name", &V, &iV)) V = NULL;',
        'PyObject *V = NULL; int iV; PyArg_ParseTuple(m, "Oi", &V, &iV);',
        'PyObject *V = NULL, *wV = NULL; if (PyArg_ParseTuple(m, "O|O", &wV, &V)) n = n;',
        'PyObject *V = NULL; long iV; const char *tV; if (!PyArg_ParseTuple(m, "lzO!", &iV, &tV, &PyList_Type, &V)) V = NULL;',
        'PyObject *V = NULL; int iV = 0; PyArg_ParseTuple(m, "U|p;text", &V, &iV); if (iV == 1) V = NULL;',
        'PyObject *V = NULL; Py_ssize_t iV = 0; PyArg_ParseTuple(m, "S" "n", &V, &iV);',
        'PyObject *V = NULL; PyArg_UnpackTuple(m, "name", 1, 1, &V);',
        'PyObject *V = NULL, *wV = NULL; if (!PyArg_UnpackTuple(m, "name", 0, 2, &wV, &V)) V = wV;',
        'PyObject *V = NULL; Py_ssize_t iV = 0; PyDict_Next(d, &iV, NULL, &V);',
        'PyObject *V = NULL, *wV; Py_ssize_t iV = 0; while (PyDict_Next(d, &iV, &V, &wV)) break;',
    ]),
    (re.compile(r"PyList_New\(0\)|PyDict_New\(\)|PyObject_(?:Str|Repr)\([xy]\)|PyDict_(?:Keys|Values|Items)\(d\)|PyUnicode_FromString\(\"a text\"\)"), [
        'Py_BuildValue("(Oi)", x, 1000003)', 'Py_BuildValue("[OO]", x, y)', 'Py_BuildValue("{s:O,s:l}", "name", y, "number", k + 1000)',
        'Py_BuildValue("(N)", Py_XNewRef(x))', 'Py_BuildValue("[NN]", Py_XNewRef(y), PyLong_FromLong(1000003))', 'Py_BuildValue("()")',
        'Py_BuildValue("(sln)", "a text", k + 1000, 1000 + PyObject_Size(l))', 'Py_BuildValue("(NO)", PyLong_FromLong(1000003), x)',
    ]),
]


def formatted(body, rng):
    """A body with half of such parts replaced."""
    return replaced(PARTS, body, rng)
