"""Which way a function uses a parameter that points to an object's place."""

from __future__ import annotations

from enum import Enum

from pycparser import c_ast

from ..reading.syntax import arguments, below, stripped


class Direction(Enum):
    """What a function does with the place."""

    #: It only reads it.
    IN = "in"
    #: It stores into it first.
    OUT = "out"
    #: It reads it, and stores into it after that; or another function may.
    BOTH = "both"


def goes_through(node: c_ast.Node, name: str) -> bool:
    """The expression is `*name` or an element of it."""
    node = stripped(node)
    if isinstance(node, c_ast.UnaryOp) and node.op == "*":
        node = stripped(node.expr)
    elif isinstance(node, c_ast.ArrayRef):
        node = node.name
    else:
        return False
    return isinstance(node, c_ast.ID) and node.name == name


def direction(function: c_ast.FuncDef, name: str) -> Direction:
    """The way of a parameter."""
    stored = read_first = passed = False
    stores: set[int] = set()
    for node in below(function.body):
        if isinstance(node, c_ast.Assignment) and goes_through(node.lvalue, name):
            stores.add(id(stripped(node.lvalue)))
            stored = True
        elif isinstance(node, (c_ast.UnaryOp, c_ast.ArrayRef)) and goes_through(node, name):
            if id(node) not in stores and not stored:
                read_first = True
        elif isinstance(node, c_ast.FuncCall):
            passed = passed or any(isinstance(stripped(item), c_ast.ID) and stripped(item).name == name
                                   for item in arguments(node))
    if stored and not read_first:
        return Direction.OUT
    return Direction.BOTH if stored or passed else Direction.IN
