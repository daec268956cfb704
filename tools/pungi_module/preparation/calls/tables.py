"""Calls of Python's API and of the C library that need more than a row, as data."""

from __future__ import annotations

from enum import Enum


class WhenSet(Enum):
    """How the value of a call says which outputs are set."""

    #: 0 where the outputs are set, -1 where they are left.
    STATUS = "status"
    #: 1 where the outputs are set; 0 and -1 where they are NULL.
    TRUTH = "truth"
    #: 0 where the outputs are set, -1 where they are NULL.
    CLEARED = "cleared"
    #: 0 or 1 where the outputs are set, -1 where they are NULL.
    SENT = "sent"
    #: 1 where the outputs are set, 0 where they are left.
    CONVERTER = "converter"
    #: 0 where the output is replaced, -1 where it is given up and NULL.
    RESIZED = "resized"


class Output(Enum):
    """What a call leaves in an output."""

    NEW = "new"
    BORROWED = "borrowed"
    #: A borrowed reference, not NULL.
    SURE = "sure"
    #: As it was.
    KEPT = "kept"
    #: Any number or text; an object is borrowed.
    ANY = "any"
    #: What stood there is given up, and a new reference or NULL is there.
    REPLACED = "replaced"
    #: As it was, or what stood there is given up, and a new reference or NULL is there.
    UPDATED = "updated"


#: Calls that return a borrowed reference, of which no row is there.
BORROWED = frozenset("""
    PyDict_GetItemId PyUnicode_FromId _PyDict_GetItemId _PyCFunction_GetModule _PyInterpreterState_GetModuleDict
    _PySys_GetObjectId _PyType_GetModuleByDef
""".split())

#: Calls without a part in counts: only their arguments are evaluated.
NOTHING = frozenset("""
    PyObject_GC_Track PyObject_GC_UnTrack PyObject_ClearWeakRefs _PyObject_GC_TRACK _PyObject_GC_UNTRACK
    PyType_Modified _Py_ForgetReference _Py_NewReference Py_SET_SIZE Py_SET_REFCNT
    _Py_LeaveRecursiveCall Py_LeaveRecursiveCall PyEval_InitThreads
""".split())

#: Slots through which an object is freed.
FREEING_SLOTS = frozenset(("tp_free", "tp_dealloc"))

#: Macros whose value is a text, where their rows say no more than that it is no object.
TEXT_MACROS = frozenset("""
    PyCapsule_Import PyUnicode_DATA PyUnicode_1BYTE_DATA PyUnicode_2BYTE_DATA PyUnicode_4BYTE_DATA
""".split())

#: Fields of structs of others that own what is stored in them.
OWNING_FIELDS = frozenset("tp_dict tp_bases tp_base obj fget ob_ref".split())

#: Types that PyArg_Parse converters leave a new reference for.
NEW_CONVERTERS = frozenset(("PyUnicode_FSConverter", "PyUnicode_FSDecoder"))
