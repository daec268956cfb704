"""Assignments to locals that are dead after them, and arguments on which nothing depends: they are left out."""

from __future__ import annotations

from collections.abc import Mapping
from dataclasses import replace

from ...model import Row
from ..text.known_names import BUILTIN_ROWS
from ..text.rewrite import bottom_up, with_parts
from ..text.subset import (NULL, ZERO, Assign, Block, Call, Declare, Expr, Expression, If, Literal, Name, Step, Stmt,
    is_pure, walk)
from .flow_graph import FlowGraph, items_of
from .liveness import Liveness

#: What is left out may have been the last that read another local: so often it is looked again.
ROUNDS = 8

#: What stands for an argument on which nothing depends, by the word of its parameter.
IDLE = {"object?": NULL, "text?": NULL, "int": ZERO, "long": ZERO, "size": ZERO}


def without_idle(body: Block, words: Mapping[str, str], given: frozenset[str], rows: Mapping[str, Row]) -> Block:
    """The body without them. Locals and parameters have the words of their types; `given` are the parameters."""
    for _ in range(ROUNDS):
        dead = Liveness(FlowGraph(body, words, given), list(words)).dead_writers()
        changed = _Idle({id(node) for node in dead}, words, rows).changed(body)
        if changed == body:
            break
        body = changed if isinstance(changed, Block) else Block()
    named = {node.text for node in walk(body) if isinstance(node, Name)}
    found = bottom_up(body, lambda node: None if is_unnamed(node, named) else node)
    return found if isinstance(found, Block) else Block()


def is_unnamed(node: Expr | Stmt, named: set[str]) -> bool:
    """The declaration of a local that nothing names, in which nothing happens."""
    return isinstance(node, Declare) and node.name not in named and (node.value is None or is_pure(node.value))


def without_empty(node: Block | If) -> Stmt | None:
    """A block or a branch; None where nothing happens in it."""
    if isinstance(node, Block):
        return node if node.items else None
    if node.otherwise is not None and not items_of(node.otherwise):
        node = replace(node, otherwise=None)
    return None if is_pure(node.condition) and node.otherwise is None and not items_of(node.then) else node


class _Idle:
    """The leaving out. `dead` has the nodes of the tree after which the locals that they write are dead."""

    def __init__(self, dead: set[int], words: Mapping[str, str], rows: Mapping[str, Row]) -> None:
        self.dead = dead
        self.words = words
        self.rows = rows

    def changed(self, node: Expr | Stmt) -> Expr | Stmt | None:
        """The node without what is idle in it; None for a statement in which nothing is left."""
        if isinstance(node, Expression):
            return self.statement(node)
        found = with_parts(node, self.changed)
        if isinstance(found, (Block, If)):
            return without_empty(found)
        if isinstance(node, Call) and isinstance(found, Call):
            return self.call(node, found)
        if id(node) not in self.dead:
            return found
        if isinstance(found, Assign) and found.op == "=" and isinstance(found.target, Name):
            return found.value if "*" in self.words[found.target.text] else found
        if isinstance(found, Declare) and found.value is not None and is_pure(found.value):
            return replace(found, value=NULL if "*" in found.words else ZERO)
        return found

    def statement(self, node: Expression) -> Expression | None:
        """A statement: of a store that is dead the value is left, if something happens in it."""
        left: Expr | None = node.expr
        if id(left) in self.dead and isinstance(left, (Assign, Step)):
            left = left.value if isinstance(left, Assign) else None
        changed = self.changed(left) if left is not None else None
        if changed is node.expr:
            return node
        return replace(node, expr=changed) if isinstance(changed, Expr) and not is_pure(changed) else None

    def call(self, node: Call, found: Call) -> Call:
        """A call: what it does depends on no number, and on no optional argument that it does not take over."""
        row = self.rows.get(node.name) or BUILTIN_ROWS.get(node.name)
        if row is None:
            return found
        taken = {*row.takes, *row.takes_on_success}
        arguments = list(found.arguments)
        for at, (word, old) in enumerate(zip(row.params, node.arguments)):
            if word in IDLE and at + 1 not in taken and self.is_idle(old, arguments[at]):
                arguments[at] = IDLE[word]
        return replace(found, arguments=tuple(arguments)) if tuple(arguments) != found.arguments else found

    def is_idle(self, old: Expr, new: Expr) -> bool:
        """Nothing happens in an argument but that a dead local is set."""
        is_dead = id(old) in self.dead
        if is_dead and isinstance(new, Step):
            return True
        value = new.value if is_dead and isinstance(new, Assign) else new
        return not isinstance(value, Literal) and is_pure(value)
