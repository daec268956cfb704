"""The same functions with calls of any number of arguments, and with places that are cleared, in the place of some parts."""
import re

# What may stand in the place of a part, V being the local in it.
PARTS = [
    (re.compile(r"return (?:NULL|PyErr_NoMemory\(\));"), [
        'return PyErr_Format(PyExc_ValueError, "none");', 'return PyErr_Format(PyExc_TypeError, "%d of %ld", n, k);',
        'return PyErr_Format(PyExc_IndexError, "%s of %R", "part", m);', 'PyErr_Format(PyExc_KeyError, "%R", m); return NULL;',
    ]),
    (re.compile(r"Py_X?DECREF\((?P<v>[a-z]+\d+)\);"), ["Py_CLEAR(V);", "Py_CLEAR(V); Py_CLEAR(V);", "Py_CLEAR(V); Py_XDECREF(V);"]),
    (re.compile(r"Py_X?DECREF\((?P<v>[xy])\);"), ["Py_CLEAR(V);"]),
    (re.compile(r"PyObject \*(?P<v>old\d+) = (?P<place>b->first|kept);"), ["PyObject *V = Py_XNewRef(PLACE); Py_CLEAR(PLACE);"]),
    (re.compile(r"PyList_New\(0\)|PyDict_(?:Keys|Values|Items)\(d\)"), [
        "PyTuple_Pack(0)", "PyTuple_Pack(1, x)", "PyTuple_Pack(2, x, y)", "PyTuple_Pack(3, y, x, y)",
    ]),
    (re.compile(r"PyObject_(?:Str|Repr)\([xy]\)|PyDict_New\(\)"), [
        "PyObject_CallFunctionObjArgs(&PyUnicode_Type, x, NULL)", "PyObject_CallFunctionObjArgs(&PyList_Type, NULL)",
        "PyObject_CallFunctionObjArgs(&PyTuple_Type, y, x, NULL)", "PyObject_CallFunctionObjArgs(&PyDict_Type, NULL, NULL)",
    ]),
]


def replaced(parts, body, rng):
    """A body with half of such parts replaced."""
    for pattern, others in parts:

        def other(found, others=others):
            if rng.random() < 0.5:
                return found[0]
            part = rng.choice(others)
            for word, group in (("PLACE", "place"), ("V", "v")):
                if group in found.re.groupindex:
                    part = re.sub(rf"\b([itw]?){word}\b", rf"\g<1>{found[group]}", part)
            return part

        body = pattern.sub(other, body)
    return body


def varied(body, rng):
    """A body with half of the parts above replaced."""
    return replaced(PARTS, body, rng)
