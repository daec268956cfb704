"""The values of constant expressions (C11 6.6)."""

from __future__ import annotations

import ast
import re
from typing import TYPE_CHECKING, Callable

from pycparser import c_ast

from .c_types import Number, Other, Pointer

if TYPE_CHECKING:
    from .type_table import TypeTable

#: The greatest constant that the program reads.
GREATEST = 2 ** 63 - 1

#: Operands of `/` and `%` are folded up to this size, where Python's and C's quotients agree after rounding to zero.
DIVISION_LIMIT = 2 ** 50

BINARY: dict[str, Callable[[int, int], int]] = {
    "+": lambda a, b: a + b, "-": lambda a, b: a - b, "*": lambda a, b: a * b,
    "|": lambda a, b: a | b, "&": lambda a, b: a & b, "^": lambda a, b: a ^ b,
    "==": lambda a, b: int(a == b), "!=": lambda a, b: int(a != b), "<": lambda a, b: int(a < b),
    ">": lambda a, b: int(a > b), "<=": lambda a, b: int(a <= b), ">=": lambda a, b: int(a >= b),
    "&&": lambda a, b: int(bool(a and b)), "||": lambda a, b: int(bool(a or b)),
}


def character(text: str) -> int | None:
    """The value of a character constant."""
    try:
        value = ast.literal_eval("b" + text.lstrip("LuU"))
    except (SyntaxError, ValueError):
        return None
    if len(value) != 1:
        return None
    return value[0] if value[0] < 128 else value[0] - 256


def integer(text: str) -> int | None:
    """The value of an integer constant."""
    text = text.rstrip("uUlL")
    try:
        return int(text, 8) if re.fullmatch(r"0[0-7]+", text) else int(text, 0)
    except ValueError:
        return None


def binary(op: str, left: int, right: int) -> int | None:
    """The value of an operator on two constants."""
    if op in BINARY:
        return BINARY[op](left, right)
    if op in ("<<", ">>") and 0 <= right < 64:
        return left << right if op == "<<" else left >> right
    if op in ("/", "%") and right and abs(left) < DIVISION_LIMIT and abs(right) < DIVISION_LIMIT:
        quotient = int(left / right)
        return quotient if op == "/" else left - right * quotient
    return None


def constant(node: c_ast.Node, types: "TypeTable") -> int | None:
    """The value of an expression that is constant, if it is one."""
    if isinstance(node, c_ast.Constant):
        if node.type == "char":
            return character(node.value)
        return integer(node.value) if "int" in node.type else None
    if isinstance(node, c_ast.ID):
        return types.enumerators.get(node.name)
    if isinstance(node, c_ast.UnaryOp):
        return unary(node, types)
    if isinstance(node, c_ast.Cast):
        return cast(node, types)
    if isinstance(node, c_ast.TernaryOp):
        condition = constant(node.cond, types)
        return None if condition is None else constant(node.iftrue if condition else node.iffalse, types)
    if isinstance(node, c_ast.BinaryOp):
        left, right = constant(node.left, types), constant(node.right, types)
        return None if left is None or right is None else binary(node.op, left, right)
    return None


def unary(node: c_ast.UnaryOp, types: "TypeTable") -> int | None:
    """The value of an operator on one constant, or the size of a type whose size is known."""
    if node.op == "sizeof":
        return size_of(node, types) if isinstance(node.expr, c_ast.Typename) else None
    if node.op not in ("+", "-", "~", "!"):
        return None
    value = constant(node.expr, types)
    return None if value is None else {"+": value, "-": -value, "~": ~value, "!": int(not value)}[node.op]


def size_of(node: c_ast.UnaryOp, types: "TypeTable") -> int | None:
    """`sizeof` of a number's or a pointer's type."""
    kind = types.of(node.expr)
    if isinstance(kind, Number):
        return max(kind.bits // 8, 1)
    return 8 if isinstance(kind, (Pointer, Other)) else None


def cast(node: c_ast.Cast, types: "TypeTable") -> int | None:
    """A constant cast to a number type that holds it."""
    value, kind = constant(node.expr, types), types.of(node.to_type)
    if value is None or not isinstance(kind, Number):
        return None
    return value if kind.bounds[0] <= value <= kind.bounds[1] else None
