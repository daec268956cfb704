"""Writes a C extension that calls functions of the Python/C API as their rows say.

Each function of the extension takes a tuple with an item for each parameter, gives the call its own references to what
the call takes over, gives up the references that it hands out, and returns what the call returned: True or False for
a pointer that is or is not NULL, a number, or None. So no count changes where the row is right.
"""

from __future__ import annotations

from dataclasses import dataclass

from pungi_module.model import Row
from pungi_module.rows import Output, WideRow
from pungi_module.rows.wide import Rest, Written

NUMBERS = {"int": "(int)number_at(args, {})", "long": "number_at(args, {})", "size": "(Py_ssize_t)number_at(args, {})"}
#: The outputs whose variable holds a reference before the call.
FILLED = (Output.KEPT, Output.REPLACED, Output.CLEARED, Output.STORED)
POINTERS = ("new", "borrowed", "borrowed_sure", "null", "argument", "argument?", "text", "array")
HEAD = """\
#define PY_SSIZE_T_CLEAN
#define Py_BUILD_CORE_MODULE 1
#include <Python.h>
#include <datetime.h>
#include <frameobject.h>
#include <marshal.h>
#include <structmember.h>

static PyObject *object_at(PyObject *args, Py_ssize_t i)
{
    PyObject *item = PyTuple_GET_ITEM(args, i);
    return item == Py_Ellipsis ? NULL : item;
}

static long number_at(PyObject *args, Py_ssize_t i)
{
    return PyLong_AsLong(PyTuple_GET_ITEM(args, i));
}

static const char *text_at(PyObject *args, Py_ssize_t i)
{
    PyObject *item = PyTuple_GET_ITEM(args, i);
    return item == Py_Ellipsis ? NULL : PyBytes_AS_STRING(item);
}

static PyObject *wrong(const char *what)
{
    PyErr_SetString(PyExc_AssertionError, what);
    return NULL;
}
"""
TAIL = """
PyMODINIT_FUNC PyInit_pungi_rows(void)
{
    static struct PyModuleDef module = { PyModuleDef_HEAD_INIT, "pungi_rows", NULL, -1, functions };
    PyDateTime_IMPORT;
    return PyModule_Create(&module);
}
"""


@dataclass(frozen=True)
class Call:
    """A call to try."""

    function: str
    row: Row | WideRow
    #: A statement before the call.
    before: str
    #: The C text of the parameters that are `any`, and of further arguments.
    texts: dict[int, str]


def extension(calls: list[Call]) -> str:
    """The source of an extension with a function `call_N` for the N-th call."""
    bodies = [thunk(number, call) for number, call in enumerate(calls)]
    table = "".join(f'    {{ "call_{number}", call_{number}, METH_VARARGS }},\n' for number in range(len(calls)))
    return HEAD + "".join(bodies) + f"\nstatic PyMethodDef functions[] = {{\n{table}    {{ NULL }}\n}};\n" + TAIL


def thunk(number: int, call: Call) -> str:
    """The C function that makes a call."""
    row = call.row
    declared = [declaration(i, word, call) for i, word in enumerate(row.params)]
    arguments = ", ".join(argument(i, word, call) for i, word in enumerate(row.params))
    expression = f"{call.function}({arguments})"
    lines = [line for line in declared if line]
    lines += [f"Py_XINCREF(p{i - 1});" for i in row.takes + on_success(row)]
    lines += [call.before] if call.before else []
    lines += result_lines(row.result, expression)
    lines += [f"if (failed) Py_XDECREF(p{i - 1});" for i in on_success(row)]
    lines += outputs_after(row)
    if isinstance(row, WideRow):
        lines += [f"Py_XDECREF(p{i - 1});" for i in row.gives]
    if row.result == "new":
        lines.append("Py_XDECREF(r);")
    lines += ["PyErr_Clear();", "(void)failed;"]
    lines += ["if (r == NULL) Py_RETURN_NONE;", "return PyLong_FromVoidPtr(r);"] if row.result in POINTERS else []
    lines += [] if row.result in POINTERS else ["return PyLong_FromLongLong(failed ? -1 : r);"]
    body = "".join(f"    {line}\n" for line in lines)
    return f"\nstatic PyObject *call_{number}(PyObject *module, PyObject *args)\n{{\n{body}}}\n"


def on_success(row: Row | WideRow) -> tuple[int, ...]:
    """The parameters that the call takes over only where it succeeds."""
    return row.takes_on_success if isinstance(row, Row) else ()


def declaration(i: int, word: str, call: Call) -> str:
    """The variable of a parameter, the argument of a call."""
    if word in ("object", "object?"):
        return f"PyObject *p{i} = object_at(args, {i});"
    if word in ("array", "array?"):
        return f"PyObject **p{i} = object_at(args, {i}) ? ((PyTupleObject *)object_at(args, {i}))->ob_item : NULL;"
    if word not in ("output", "output?") or not isinstance(call.row, WideRow):
        return ""
    output = call.row.outputs[i + 1]
    if output in FILLED:
        return f"PyObject *p{i} = Py_XNewRef(object_at(args, {i}));"
    if output is Output.ANY:
        return f"long long p{i}[8] = {{ 0 }};"
    if output is Output.BUFFER:
        return f"Py_buffer p{i};"
    if output is Output.RELEASED:
        return f"Py_buffer p{i}; PyObject_GetBuffer(object_at(args, {i}), &p{i}, PyBUF_SIMPLE);"
    return f"PyObject *p{i} = NULL;"


def argument(i: int, word: str, call: Call) -> str:
    """The text of an argument."""
    if word in NUMBERS:
        return NUMBERS[word].format(i)
    if word in ("text", "text?"):
        return f"text_at(args, {i})"
    if word in ("output", "output?") and isinstance(call.row, WideRow):
        if call.function in ("Py_CLEAR", "Py_SETREF", "Py_XSETREF"):
            return f"p{i}"
        return f"p{i}" if call.row.outputs[i + 1] is Output.ANY else f"&p{i}"
    if word == "any":
        return call.texts[i]
    if word == "..." and isinstance(call.row, WideRow):
        end = ", NULL" if call.row.rest is Rest.OBJECTS and call.function != "PyTuple_Pack" else ""
        return call.texts[i] + end
    return f"(void *)p{i}"


def result_lines(result: str, expression: str) -> list[str]:
    """What makes a call, with `r` for its result and `failed`."""
    if result == "void":
        return [f"{expression};", "long long r = 0; int failed = 0;"]
    if result in POINTERS:
        lines = [f"void *r = (void *){expression};", "int failed = r == NULL;"]
        if result == "null":
            lines.append('if (r != NULL) return wrong("not NULL");')
        if result in ("borrowed_sure", "argument"):
            lines.append('if (r == NULL) return wrong("NULL");')
        return lines
    lines = [f"long long r = (long long){expression};"]
    failure = {"status": "r < 0", "truth": "r < 0", "size": "r < 0", "converted": "r == 0"}.get(result, "0")
    allowed = {"status": "r == 0 || r == -1", "truth": "r >= -1 && r <= 1", "size": "r >= -1"}.get(result)
    if allowed:
        lines.append(f'if (!({allowed})) return wrong("a number that the row excludes");')
    return [*lines, f"int failed = {failure};"]


def outputs_after(row: Row | WideRow) -> list[str]:
    """What checks the variables after a call, and gives up what they hold."""
    if not isinstance(row, WideRow):
        return []
    lines: list[str] = []
    for number, output in row.outputs.items():
        p = f"p{number - 1}"
        if output is Output.BUFFER:
            lines.append(f"if (!failed) PyBuffer_Release(&{p});")
        if output in (Output.NEW, Output.REPLACED) and row.written is Written.NULL_ON_FAILURE:
            lines.append(f'if (failed != ({p} == NULL)) return wrong("an output");')
        if output is Output.NEW and row.written is Written.SUCCESS:
            lines.append(f'if (failed != ({p} == NULL)) return wrong("an output");')
        if output is Output.NEW and row.written is Written.NULL_UNLESS_FOUND:
            lines.append(f'if ((r == 1) != ({p} != NULL)) return wrong("an output");')
        if output is Output.CLEARED:
            lines.append(f'if ({p} != NULL) return wrong("an output that is not NULL");')
        if output in (Output.NEW, Output.NEW_OR_NULL, Output.KEPT, Output.REPLACED, Output.STORED):
            lines.append(f"Py_XDECREF({p});")
    return lines
