"""Calls that make an object from a format: Py_BuildValue, PyObject_CallFunction and the like."""

from __future__ import annotations

from pycparser import c_ast

from ..reading.syntax import string_value
from ..translation.handlers import call
from ..translation.translation import Translation
from ..translation.values import Value
from ..types.c_types import OBJECT
from .default_calls import Signature, default_call
from .format_units import build_units

#: For each call the place of its format among the arguments, from 0.
FORMATS = {
    "Py_BuildValue": 0, "_Py_BuildValue_SizeT": 0, "PyObject_CallFunction": 1, "_PyObject_CallFunction_SizeT": 1,
    "PyObject_CallMethod": 2, "_PyObject_CallMethod_SizeT": 2, "_PyObject_CallMethodId": 2,
    "_PyObject_CallMethodId_SizeT": 2, "PyEval_CallFunction": 1, "PyEval_CallMethod": 2,
}


@call(*FORMATS)
def build(t: Translation, node: c_ast.FuncCall, given: list[c_ast.Node]) -> Value:
    """A new object or NULL; the arguments of units `N` are taken over."""
    at = FORMATS[node.name.name]
    text = string_value(given[at]) if at < len(given) else None
    takes: list[int] = []
    if text is None:
        if t.constant(given[at]) is None and len(given) > at + 1:
            t.assume("format", "no constant", node)
    else:
        argument = at + 2
        for unit in build_units(text):
            if unit.letters == "N":
                takes.append(argument)
            argument += unit.arguments
    return default_call(t, node, Signature(node.name.name, OBJECT, takes=tuple(takes)), given)


@call("PyErr_Format", "PyErr_FormatV")
def format_error(t: Translation, node: c_ast.FuncCall, given: list[c_ast.Node]) -> Value:
    """PyErr_Format: always NULL."""
    return default_call(t, node, Signature(node.name.name, OBJECT, "null"), given)


@call("PyTuple_Pack", "PyObject_CallFunctionObjArgs", "PyObject_CallMethodObjArgs", "_PyObject_CallMethodIdObjArgs",
      "PyUnicode_FromFormat", "PyBytes_FromFormat", "PyUnicode_FromFormatV")
def new_from_all(t: Translation, node: c_ast.FuncCall, given: list[c_ast.Node]) -> Value:
    """A new object or NULL, from any number of arguments."""
    return default_call(t, node, Signature(node.name.name, OBJECT), given)
