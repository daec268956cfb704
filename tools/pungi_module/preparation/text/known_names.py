"""The names that Pungi knows by itself (crates/pungi_base/specs/Words.antt, crates/pungi_api/specs/Manual.antt)."""

from __future__ import annotations

from ...model import Row

KEYWORDS = frozenset("""
    int long short char unsigned signed float double void _Bool struct union enum typedef static extern inline
    const volatile register if else while do for switch case default break continue return goto sizeof NULL
""".split())

MACROS = frozenset("""
    Py_RETURN_NONE Py_RETURN_TRUE Py_RETURN_FALSE Py_BEGIN_ALLOW_THREADS Py_END_ALLOW_THREADS PyMODINIT_FUNC
    PyObject_HEAD PyObject_VAR_HEAD Py_LT Py_LE Py_EQ Py_NE Py_GT Py_GE
""".split())

TYPE_WORDS = frozenset("""
    PyObject PyVarObject PyTypeObject PyMethodDef PyModuleDef PyModuleDef_Slot PyMemberDef PyGetSetDef
    PyNumberMethods PySequenceMethods PyMappingMethods PyType_Slot PyType_Spec PyCFunction Py_ssize_t Py_hash_t
    Py_buffer PyThreadState PyGILState_STATE size_t ssize_t int8_t int16_t int32_t int64_t uint8_t uint16_t
    uint32_t uint64_t bool FILE
""".split())

STATICS = frozenset("""
    Py_None Py_True Py_False PyExc_Exception PyExc_TypeError PyExc_ValueError PyExc_RuntimeError PyExc_KeyError
    PyExc_IndexError PyExc_AttributeError PyExc_OverflowError PyExc_MemoryError PyExc_StopIteration
    PyExc_ImportError PyExc_SystemError PyExc_NotImplementedError PyExc_OSError PyExc_ZeroDivisionError PyList_Type
    PyTuple_Type PyDict_Type PyUnicode_Type PyLong_Type PyBytes_Type
""".split())

#: Calls with effects of their own; the first six are judged.
SPECIAL_CALLS = frozenset("""
    Py_INCREF Py_DECREF Py_XINCREF Py_XDECREF Py_CLEAR Py_NewRef Py_XNewRef PyObject_New PyTuple_Pack
    PyObject_CallFunctionObjArgs PyErr_Format PyArg_ParseTuple PyArg_UnpackTuple PyDict_Next Py_BuildValue
""".split())

OTHER_WORDS = frozenset("ob_base PyDoc_STRVAR Py_UNUSED include define".split())

#: One call a line: its name, what it returns, its parameters; `!` after one that it takes over, `+` where it takes it
#: over only on success.
CALLS = """
    PyLong_FromLong new long
    PyUnicode_FromString new text
    PyBytes_FromString new text
    PyList_New new size
    PyTuple_New new size
    PyDict_New new
    PyObject_Str new object
    PyObject_Repr new object
    PyObject_GetAttr new object object
    PyObject_GetAttrString new object text
    PyObject_GetItem new object object
    PyObject_GetIter new object
    PyObject_CallObject new object object?
    PyObject_Call new object object object?
    PySequence_GetItem new object size
    PySequence_Fast new object text
    PyNumber_Add new object object
    PyNumber_Subtract new object object
    PyNumber_Multiply new object object
    PyDict_Keys new object
    PyDict_Values new object
    PyDict_Items new object
    PyImport_ImportModule new text
    PyIter_Next new object
    PyModule_Create new module
    PyList_GetItem borrowed object size
    PyTuple_GetItem borrowed object size
    PyDict_GetItem borrowed object object
    PyDict_GetItemString borrowed object text
    PyDict_GetItemWithError borrowed object object
    PyImport_AddModule borrowed text
    PyErr_Occurred borrowed
    PyModule_GetDict borrowed_sure object
    PySequence_Fast_GET_ITEM borrowed_sure object size
    PyList_GET_ITEM borrowed_sure object size
    PyTuple_GET_ITEM borrowed_sure object size
    PyList_SetItem status object size object!
    PyTuple_SetItem status object size object!
    PyModule_AddObject status object text object+
    PyModule_AddObjectRef status object text object
    PyList_Append status object object
    PyList_Insert status object size object
    PyDict_SetItem status object object object
    PyDict_SetItemString status object text object
    PyDict_DelItem status object object
    PyObject_SetAttr status object object object
    PyObject_SetAttrString status object text object
    PyObject_SetItem status object object object
    PySequence_SetItem status object size object
    PyModule_AddIntConstant status object text long
    PyType_Ready status object
    PyObject_IsTrue truth object
    PyObject_IsInstance truth object object
    PyObject_RichCompareBool truth object object int
    PyObject_Size size object
    PySequence_Size size object
    PySequence_Length size object
    PyLong_AsLong long object
    PyList_SET_ITEM void object size object!
    PyTuple_SET_ITEM void object size object!
    PyErr_SetString void object text
    PyErr_SetNone void object
    PyErr_Clear void
    PyErr_NoMemory null
"""


def _row(words: list[str]) -> Row:
    """The row of a line of `CALLS`, after its name."""
    takes = tuple(at for at, word in enumerate(words[1:], 1) if word.endswith("!"))
    on_success = tuple(at for at, word in enumerate(words[1:], 1) if word.endswith("+"))
    return Row(tuple(word.rstrip("!+") for word in words[1:]), words[0], takes, on_success)


#: The calls that their parameters and their value describe. A parameter `module` is the address of a module's table.
BUILTIN_ROWS: dict[str, Row] = {
    words[0]: _row(words[1:]) for words in map(str.split, CALLS.strip().splitlines())
}

#: No row, variable or function of a text has one of these names.
RESERVED = KEYWORDS | MACROS | TYPE_WORDS | STATICS | SPECIAL_CALLS | OTHER_WORDS | frozenset(BUILTIN_ROWS)

#: The type objects among the static objects: they are named with a `&`.
STATIC_TYPES = frozenset(name for name in STATICS if name.endswith("_Type"))
