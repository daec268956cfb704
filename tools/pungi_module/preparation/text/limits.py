"""The limits of a function that Pungi judges (rules N15 and N16 and the grammar's)."""

from __future__ import annotations

import re

from ...lexical import QUOTED
from .printed_function import PrintedFunction
from .printer import Printer
from .subset import Declare, Expr, Stmt, parts, walk

#: Locals and parameters of a function (rule N15), its nodes (rule N16), and brackets around a token.
LOCAL_LIMIT, NODE_LIMIT, NESTING_LIMIT = 32, 4096, 64

#: Nodes on a path of a statement or expression; the program has 256 and counts some nodes that this tree has not.
DEPTH_LIMIT = 120


def depth(node: Expr | Stmt) -> int:
    """The longest path in a tree."""
    return 1 + max((depth(part) for part in parts(node)), default=0)


def nesting(function: PrintedFunction) -> int:
    """The most brackets around a token of the printed function."""
    printer = Printer(function.place.file)
    printer.function(function)
    deepest = count = 0
    for character in re.sub(QUOTED, "", "".join(printer.out)):
        count += (character in "([{") - (character in ")]}")
        deepest = max(deepest, count)
    return deepest


def broken_size(function: PrintedFunction) -> str | None:
    """The limit that a function breaks by its size."""
    nodes = list(walk(function.body))
    local_count = len(function.parameters) + sum(isinstance(node, Declare) for node in nodes)
    if local_count > LOCAL_LIMIT:
        return "%d locals and parameters" % local_count
    if len(nodes) > NODE_LIMIT:
        return "%d nodes" % len(nodes)
    return None


def broken_limit(function: PrintedFunction) -> str | None:
    """The limit that a finished function breaks."""
    deepest = depth(function.body)
    # each bracket is that of a node, so that only a deep tree can be nested deep
    if deepest > DEPTH_LIMIT or deepest > NESTING_LIMIT and nesting(function) > NESTING_LIMIT:
        return "nested too deep"
    return broken_size(function)
