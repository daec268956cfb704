"""Values of a replayed run, and the ways in which a statement ends."""

from __future__ import annotations

from pycparser import c_ast

from ..model import Value
from .account import Object

#: Python's static objects, in the order of their numbers (README, 'What a report means').
STATICS = """Py_None Py_True Py_False PyExc_Exception PyExc_TypeError PyExc_ValueError PyExc_RuntimeError PyExc_KeyError
PyExc_IndexError PyExc_AttributeError PyExc_OverflowError PyExc_MemoryError PyExc_StopIteration PyExc_ImportError
PyExc_SystemError PyExc_NotImplementedError PyExc_OSError PyExc_ZeroDivisionError PyList_Type PyTuple_Type PyDict_Type
PyUnicode_Type PyLong_Type PyBytes_Type""".split()
#: A pointer to characters. NULL is the number 0.
TEXT = "text"
ESCAPES = {"n": 10, "t": 9, "r": 13, "0": 0, "a": 7, "b": 8, "f": 12, "v": 11}


class NotReplayed(Exception):
    """The run can't be followed."""


class Return(Exception):
    """A `return`, with its value."""

    def __init__(self, value: object) -> None:
        super().__init__()
        self.value = value


class Goto(Exception):
    """A `goto`, with its label."""

    def __init__(self, label: str) -> None:
        super().__init__()
        self.label = label


class Break(Exception):
    """A `break`."""


class Continue(Exception):
    """A `continue`."""


BREAKS = (Break, Continue)


def from_value(value: Value) -> object:
    """The value that a report prints."""
    if value.kind == "object":
        return Object(value.number or 0)
    if value.kind == "int":
        return value.number or 0
    return TEXT if value.kind == "text" else 0


def constant(node: c_ast.Constant) -> object:
    """The value of a constant."""
    if node.type == "string":
        return TEXT
    if node.type == "char":
        inner = node.value.strip("'")
        return ESCAPES.get(inner[1:], ord(inner[1])) if inner.startswith("\\") else ord(inner[0])
    digits = node.value.rstrip("uUlL")
    octal = len(digits) > 1 and digits[0] == "0" and digits.isdigit()
    return int(digits, 8) if octal else int(digits, 0)


def arithmetic(op: str, left: object, right: object) -> object:
    """What a binary operator gives. Only equality looks at values that are no numbers."""
    if op in ("==", "!="):
        return int((left == right) == (op == "=="))
    if not (isinstance(left, int) and isinstance(right, int)):
        if isinstance(left, str) and op in "+-":
            return left
        raise NotReplayed(f"{op} of what is no number")
    if op in ("/", "%"):
        if right == 0:
            raise NotReplayed("a run that stops")
        quotient = abs(left) // abs(right) * (1 if (left < 0) == (right < 0) else -1)
        return quotient if op == "/" else left - quotient * right
    compared = {"<": left < right, "<=": left <= right, ">": left > right, ">=": left >= right}
    if op in compared:
        return int(compared[op])
    sums = {"+": left + right, "-": left - right, "*": left * right}
    if op not in sums:
        raise NotReplayed(op)
    return sums[op]
