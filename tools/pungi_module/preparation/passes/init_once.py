"""What an initialiser, a maker of objects or a function with an output stores into first: it held nothing before."""

from __future__ import annotations

import re
from collections.abc import Mapping
from dataclasses import replace
from typing import Callable

from ..text.printed_function import bare
from ..text.subset import (STOP, Arrow, Assign, Binary, Block, Call, Case, Declare, Do, Expr, For, If, Jump, Label,
    Name, Return, Stmt, Switch, Unary, While, parts, walk)
from ..translation.targets import slot_of

LOOPS = (While, Do, For)

#: The slot of an element.
ELEMENT = re.compile(r"->i\d+$")

IsFirst = Callable[[str, bool], bool]
"""Whether a slot held nothing before it is stored into first; the second argument says whether the store stands where a
global was found to be NULL."""


def guarded(
    body: Block, is_first: IsFirst, is_global: Callable[[str], bool], stored_by: Mapping[str, frozenset[str]]
) -> tuple[Block, list[str]]:
    """The body in which a run stops where the first store into one of these slots finds something there, and the
    slots. A body with a jump back is left as it is: there a store is not the first each time. `stored_by` has the slots
    that calls which stay calls store into."""
    if jumps_back(body):
        return body, []
    guard = _Guard(is_first, is_global, stored_by)
    return guard.statement(body), guard.guarded


def jumps_back(body: Block) -> bool:
    """A `goto` leads to an earlier label."""
    labels: set[str] = set()
    for node in walk(body):
        if isinstance(node, Label):
            labels.add("goto " + node.name)
        elif isinstance(node, Jump) and node.word in labels:
            return True
    return False


def always_returns(node: Stmt) -> bool:
    """The statement ends with a `return`, and nothing in it leads elsewhere."""
    last = node
    while isinstance(last, Block) and last.items:
        last = last.items[-1]
    return isinstance(last, Return) and not any(isinstance(item, Jump) for item in walk(node))


def elements_read(node: Expr | Stmt) -> set[str]:
    """The elements of arrays of objects that a statement or expression reads, or that a call in it may read."""
    targets = {id(item.target) for item in walk(node) if isinstance(item, Assign)}
    found = {slot_of(item) for item in walk(node) if isinstance(item, Arrow) and id(item) not in targets}
    given = {f"{argument.text}->i0" for item in walk(node) if isinstance(item, Call)
             for argument in item.arguments if isinstance(argument, Name)}
    return {slot for slot in found if slot is not None and ELEMENT.search(slot)} | given


class _Guard:
    """Statements with their guards, in the order of the text."""

    def __init__(
        self, is_first: IsFirst, is_global: Callable[[str], bool], stored_by: Mapping[str, frozenset[str]]
    ) -> None:
        self.is_first = is_first
        self.is_global = is_global
        self.stored_by = stored_by
        #: A global was found to be NULL around here.
        self.is_unfilled = False
        #: The slots that may have been stored into before; of an array of objects also those that may have been read. A
        #: callee stores into a field of any variable.
        self.stored: set[str] = set()
        self.guarded: list[str] = []

    def statement(self, node: Stmt) -> Stmt:
        """The statement with its guards."""
        if isinstance(node, Block):
            return replace(node, items=tuple(self.statement(item) for item in node.items))
        if isinstance(node, If):
            return self.branches(node)
        if isinstance(node, LOOPS):
            self.stored |= {item.slot for item in walk(node) if isinstance(item, Assign) and item.slot}
            self.stored |= elements_read(node) | self.stored_in_calls(node)
            return node
        if isinstance(node, Switch):
            guards = self.guards(node.value)
            body = self.statement(node.body)
            assert isinstance(body, Block)
            return self.after(guards, Switch(node.value, body, place=node.place))
        if isinstance(node, (Case, Label, Jump)):
            return node
        return self.after([guard for part in parts(node) for guard in self.guards(part)], node)

    def branches(self, node: If) -> Stmt:
        """Both branches, each after what the condition stores."""
        guards = self.guards(node.condition)
        before = frozenset(self.stored)
        was_unfilled, self.is_unfilled = self.is_unfilled, self.is_unfilled or self.finds_unfilled(node.condition)
        then = self.statement(node.then)
        self.is_unfilled = was_unfilled
        after_then = before if always_returns(node.then) else self.stored
        self.stored = set(before)
        otherwise = self.statement(node.otherwise) if node.otherwise is not None else None
        if node.otherwise is not None and always_returns(node.otherwise):
            self.stored = set(before)
        self.stored |= after_then
        return self.after(guards, If(node.condition, then, otherwise, place=node.place))

    def finds_unfilled(self, node: Expr) -> bool:
        """The condition holds only where a global is NULL."""
        if isinstance(node, Binary) and node.op in ("||", "&&"):
            return self.finds_unfilled(node.left) and (node.op == "&&" or self.finds_unfilled(node.right))
        return (isinstance(node, Unary) and node.op == "!" and isinstance(node.operand, Name)
                and self.is_global(node.operand.text))

    def guards(self, node: Expr | Stmt) -> list[Stmt]:
        """A stop for each slot that is stored into here first."""
        self.stored |= elements_read(node) | self.stored_in_calls(node)
        found: list[Stmt] = []
        for item in walk(node):
            if isinstance(item, Assign) and item.slot and not self.stored & {item.slot, bare(item.slot)}:
                self.stored.add(item.slot)
                if self.is_first(item.slot, self.is_unfilled):
                    self.guarded.append(item.slot)
                    found.append(If(item.target, Block((STOP,))))
        return found

    def stored_in_calls(self, node: Expr | Stmt) -> set[str]:
        """What the callees store into whose calls stand in a statement or expression."""
        calls = [item.name for item in walk(node) if isinstance(item, Call)]
        return set().union(*(self.stored_by.get(name, ()) for name in calls))

    @staticmethod
    def after(guards: list[Stmt], node: Stmt) -> Stmt:
        """The statement after its guards; a declaration stays where its block sees it."""
        if not guards or isinstance(node, Declare):
            return node
        return Block((*guards, node), place=node.place)
