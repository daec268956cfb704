"""Locals are set to `NULL` or 0 where they are dead, that is where each way on writes them before it reads them.

Pungi tells the values of locals apart, whether anything reads them again or not: where dead ones have one value, there
is less to tell apart in what comes after. The stores change no count, and no run reads what they store.
"""

from __future__ import annotations

from collections import Counter
from collections.abc import Mapping
from dataclasses import replace

from ..text.printed_function import PrintedFunction
from ..text.rows_used import RowsUsed
from ..text.subset import (NULL, ZERO, Assign, Block, Declare, Do, Expr, Expression, For, If, Name, Stmt, Switch, While,
    walk)
from .flow_graph import FlowGraph, Path, items_of
from .idle import without_idle
from .liveness import DeadLocals

#: The type of a parameter that nothing reads: whether it is `NULL`, and which other one it is, is not asked then.
UNREAD = "int "


def with_dead_locals_set(function: PrintedFunction, rows: RowsUsed) -> PrintedFunction:
    """The function with these stores, and without what is idle in it."""
    given = frozenset(name for _, name in function.parameters)
    words = words_of(function)
    body = without_idle(function.body, words, given, rows.rows)
    top = {item.name for item in body.items if isinstance(item, Declare)} | given
    setting = _Setting(DeadLocals(FlowGraph(body, words, given), list(words), words.keys() - top), words)
    start = [Declare(words[name], name, setting.value(name)) for name in words if name in setting.moved]
    body = replace(body, items=(*start, *setting.items(body, ())))
    named = {node.text for node in walk(body) if isinstance(node, Name)}.union(function.taken)
    parameters = [(words if name in named else UNREAD, name) for words, name in function.parameters]
    return replace(function, parameters=parameters, body=body)


def words_of(function: PrintedFunction) -> dict[str, str]:
    """The words of the types of locals and parameters, by their names. A name that two locals have is not looked at."""
    found = [(name, words) for words, name in function.parameters]
    found += [(node.name, node.words) for node in walk(function.body) if isinstance(node, Declare)]
    count = Counter(name for name, _ in found)
    return {name: words for name, words in found if count[name] == 1}


class _Setting:
    """The stores, put into a body."""

    def __init__(self, dead: DeadLocals, words: Mapping[str, str]) -> None:
        self.words = words
        self.stores = dead.stores()
        stored = {name for names in self.stores.values() for name in names}
        #: The locals of inner blocks that are declared at the top.
        self.moved = stored & dead.movable
        #: The locals that get a value where they are declared.
        self.started = stored & dead.unused_at_first

    def items(self, node: Stmt | None, path: Path) -> tuple[Stmt, ...]:
        """The statements of a block, or of what stands in place of one, with the stores between them."""
        found: list[Stmt] = []
        items = items_of(node)
        for at, item in enumerate(items):
            found += self.stores_at((*path, at))
            if isinstance(item, Declare) and item.name in self.moved:
                target = Name(item.name, place=item.place)
                found += [Expression(Assign(target, "=", item.value), place=item.place)] if item.value else []
            else:
                found.append(self.statement(item, (*path, at)))
        return (*found, *self.stores_at((*path, len(items))))

    def stores_at(self, path: Path) -> list[Stmt]:
        """The stores at a spot. They stand on the line of what is before them."""
        return [Expression(Assign(Name(name), "=", self.value(name))) for name in self.stores.get(path, [])]

    def value(self, name: str) -> Expr:
        """What a dead local is set to."""
        return NULL if "*" in self.words[name] else ZERO

    def inner(self, node: Stmt, path: Path) -> Stmt:
        """The body of another statement."""
        items = self.items(node, path)
        if isinstance(node, Block):
            return replace(node, items=items)
        return items[0] if len(items) == 1 else Block(items, place=node.place)

    def statement(self, node: Stmt, path: Path) -> Stmt:
        """A statement with the stores in it."""
        first = (*path, 0)
        if isinstance(node, Block):
            return replace(node, items=self.items(node, first))
        if isinstance(node, If):
            then = self.inner(node.then, first)
            if node.otherwise is not None:
                return replace(node, then=then, otherwise=self.inner(node.otherwise, (*path, 1)))
            items = self.items(None, (*path, 1))
            return replace(node, then=then, otherwise=Block(items) if items else None)
        if isinstance(node, (While, Do, For, Switch)):
            return replace(node, body=self.inner(node.body, first))
        if isinstance(node, Declare) and node.value is None and node.name in self.started:
            return replace(node, value=self.value(node.name))
        return node
