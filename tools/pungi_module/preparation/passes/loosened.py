"""A function of which less is kept, for a second look at one that is open.

What holds no object may be left at any of its exits, whatever its numbers are, and a field without an object that
nothing reads is not stored. Each run of the function is one of the loosened function too, so that the function is clean
where the loosened one is.
"""

from __future__ import annotations

from collections.abc import Iterator

from ..text.rewrite import bottom_up
from ..text.rows_used import RowsUsed
from ..text.subset import (Arrow, Assign, Block, Call, CastTo, Declare, EndOfObject, Expr, Expression, If, Jump, Label,
    Name, Return, Step, Stmt, Switch, is_pure, parts, walk)
from ..translation.values import Variable
from ..types.kinds import Kind
from .collapse import LOOPS, Collapse, assigns_constants


class Loosened:
    """The loosening of one function's body."""

    def __init__(self, rows: RowsUsed, variables: dict[str, Variable], parameters: set[str]) -> None:
        self.rows = rows
        self.collapse = Collapse(rows, variables)
        #: The locals for objects: a branch that tests one is kept.
        self.objects = {name for name, known in variables.items() if known.kind == Kind.OBJECT} - parameters

    def body(self, body: Block) -> Block:
        """The loosened body."""
        read = set(fields_read(body))
        body = bottom_up(body, lambda node: without_store(node, read)) or Block()
        return bottom_up(body, self._change)

    def _change(self, node: Expr | Stmt) -> Expr | Stmt | None:
        if isinstance(node, LOOPS) or isinstance(node, (If, Switch)) and not assigns_constants(node):
            return self._loosened(node)
        return node

    def _loosened(self, node: Stmt) -> Stmt:
        assigned = self.collapse.assigned(node)
        if assigned is None or self._tests_objects(node):
            return node
        if any(isinstance(part, (Label, EndOfObject)) for part in walk(node)):
            return node
        exits = list(dict.fromkeys(exits_of(node, isinstance(node, LOOPS), isinstance(node, (*LOOPS, Switch)))))
        inner = {part.name for part in walk(node) if isinstance(part, Declare)}
        if any(isinstance(part, Name) and part.text in inner for end in exits for part in walk(end)):
            return node
        left = [If(self.rows.generic("choice", []), Block((end,)), place=end.place) for end in exits]
        return Block((*self.collapse.any_values(assigned, node), *left), place=node.place)

    def _tests_objects(self, node: Stmt) -> bool:
        """A branch in the statement depends on whether a local holds an object, or on which."""
        return any(isinstance(part, Name) and part.text in self.objects
                   for one in walk(node) if not isinstance(one, (Call, Arrow, CastTo, Return)) for part in parts(one))


def exits_of(node: Stmt, in_loop: bool, in_switch: bool) -> Iterator[Stmt]:
    """The returns and jumps in a statement that leave it."""
    if isinstance(node, Return):
        yield node
    if isinstance(node, Jump) and not (in_loop if node.word == "continue" else node.word == "break" and in_switch):
        yield node
    for part in parts(node):
        if isinstance(part, Stmt):
            loop = in_loop or isinstance(part, LOOPS)
            yield from exits_of(part, loop, in_switch or isinstance(part, (*LOOPS, Switch)))


def fields_read(body: Stmt) -> Iterator[str]:
    """The fields that are read."""
    for node in walk(body):
        for part in parts(node):
            if isinstance(part, Arrow) and not (isinstance(node, Assign) and node.op == "=" and part is node.target):
                yield part.member


def without_store(node: Expr | Stmt, read: set[str]) -> Expr | Stmt | None:
    """A statement without its store into a field without an object that nothing reads."""
    if not isinstance(node, Expression) or not isinstance(node.expr, Assign):
        return node
    target = node.expr.target
    if not isinstance(target, Arrow) or not is_pure(target) or target.member in read:
        return node
    if node.expr.slot is not None or node.expr.op != "=":
        return node
    return None if is_pure(node.expr.value) else Expression(node.expr.value, place=node.place)
