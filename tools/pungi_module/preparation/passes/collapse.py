"""Parts of a function in which nothing happens to objects: they become any values of the numbers that they assign."""

from __future__ import annotations

from ..text.rewrite import bottom_up
from ..text.rows_used import RowsUsed
from ..text.subset import (Assign, Block, Call, Declare, Do, EndOfObject, Expr, Expression, For, If, Jump, Label,
    Literal, Name, Return, Step, Stmt, Switch, While, parts, walk)
from ..translation.values import Variable
from ..types.kinds import Kind

LOOPS = (While, Do, For)

#: What a collapsed variable becomes, by the words of its declaration.
ANY_WORDS = {"int ": "int", "long ": "long", "Py_ssize_t ": "long", "char *": "text"}


class Collapse:
    """The collapsing of one function's body."""

    def __init__(self, rows: RowsUsed, variables: dict[str, Variable]) -> None:
        self.rows = rows
        self.variables = variables

    def body(self, body: Block) -> Block:
        """The body with its loops, and its branches without constants, collapsed."""
        return bottom_up(body, self._change)

    def _change(self, node: Expr | Stmt) -> Expr | Stmt | None:
        if isinstance(node, LOOPS):
            return self._collapsed(node)
        if isinstance(node, (If, Switch)) and not assigns_constants(node):
            return self._collapsed(node)
        return node

    def _collapsed(self, node: Stmt) -> Stmt:
        assigned = None if leaves(node) else self.assigned(node)
        if assigned is None:
            return node
        found = self.any_values(assigned, node)
        return found[0] if len(found) == 1 else Block(tuple(found), place=node.place)

    def any_values(self, names: set[str], node: Stmt) -> list[Stmt]:
        """What gives these numbers and texts any values."""
        return [Expression(Assign(Name(name), "=", self._any(name)), place=node.place) for name in sorted(names)]

    def _any(self, name: str) -> Expr:
        kind = self.variables[name].kind
        return self.rows.generic({Kind.INT: "int", Kind.TEXT: "text"}.get(kind, "long"), [])

    def assigned(self, node: Stmt) -> set[str] | None:
        """The numbers and texts that a statement assigns; None where something happens to objects."""
        inner = {part.name for part in walk(node) if isinstance(part, Declare)}
        assigned: set[str] = set()
        for part in walk(node):
            if isinstance(part, (Assign, Step)):
                target = part.target
                variable = self.variables.get(target.text) if isinstance(target, Name) else None
                if variable is None or variable.is_static or variable.kind == Kind.OBJECT:
                    return None
                assigned.add(target.text)
            elif isinstance(part, Declare) and part.words not in ANY_WORDS:
                return None
            elif isinstance(part, Call) and not part.is_harmless:
                return None
        return assigned - inner


def leaves(node: Stmt) -> bool:
    """A run may leave the statement other than at its end."""
    for part in walk(node):
        if isinstance(part, (Return, Label, EndOfObject)) or isinstance(part, Jump) and part.word.startswith("goto"):
            return True
    return jumps_out(node, isinstance(node, LOOPS), isinstance(node, LOOPS + (Switch,)))


def jumps_out(node: Stmt, in_loop: bool, in_switch: bool) -> bool:
    """A `break` or `continue` in the statement belongs to a loop or `switch` around it."""
    if isinstance(node, Jump):
        return not (in_loop if node.word == "continue" else in_switch)
    for part in parts(node):
        if isinstance(part, Stmt):
            loop = in_loop or isinstance(part, LOOPS)
            if jumps_out(part, loop, in_switch or isinstance(part, LOOPS + (Switch,))):
                return True
    return False


def assigns_constants(node: Stmt) -> bool:
    """A constant is assigned in the statement, as to a variable that says what was found."""
    return any(isinstance(part, Assign) and isinstance(part.value, Literal) for part in walk(node))
