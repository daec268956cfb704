"""The control-flow graph of a function's body: which local is read and written in which order, and where a statement
may be put."""

from __future__ import annotations

from collections.abc import Collection
from dataclasses import dataclass, field
from enum import Enum

from ..text.subset import (NULL, ONE, STOP, STOP_VALUE, ZERO, Assign, Binary, Block, Case, Conditional, Declare, Do,
    Expr, For, If, Jump, Label, Name, Return, Step, Stmt, Switch, Unary, While, parts, walk)

#: Where a statement stands: for each statement around it the number of the body, and that of the item there.
Path = tuple[int, ...]


class Event(Enum):
    """What happens at a node of the graph."""

    NOTHING = 0
    READ = 1
    #: The local gets a value, `NULL` or 0, or holds nothing.
    WRITTEN = 2
    CLEARED = 3
    UNSET = 4
    #: It is declared without a value.
    DECLARED = 5
    #: A statement may be put here.
    SPOT = 6


@dataclass
class Node:
    """A node of the graph, and those after it: none where the function returns or a run stops."""

    event: Event
    next: list[int]
    name: str = ""
    #: The assignment or declaration by which it is written.
    writer: Expr | Stmt | None = None
    path: Path = ()
    #: At a spot: the locals that may be named there.
    scope: frozenset[str] = frozenset()


@dataclass
class _Around:
    """Where jumps around a statement lead to."""

    after: int
    again: int
    cases: list[int] = field(default_factory=list)
    has_default: bool = False


class FlowGraph:
    """The graph of a body, with what happens to these locals and parameters. Each node is made after those that come
    next, but where a loop or jump leads back."""

    def __init__(self, body: Block, names: Collection[str], parameters: frozenset[str]) -> None:
        self.nodes: list[Node] = []
        self.names = names
        self.labels = {node.name: self.node(Event.NOTHING) for node in walk(body) if isinstance(node, Label)}
        self.end = self.node(Event.NOTHING)
        self.entry = self.body(body, (), parameters, self.end, _Around(self.end, self.end))

    def node(self, event: Event, *following: int, name: str = "", writer: Expr | Stmt | None = None) -> int:
        """A new node, but where what happens is of no local that is looked at."""
        if name and name not in self.names:
            return following[0]
        self.nodes.append(Node(event, list(following), name, writer))
        return len(self.nodes) - 1

    # ---- statements

    def body(self, node: Stmt | None, path: Path, scope: frozenset[str], following: int, around: _Around) -> int:
        """The statements of a block, or of what stands in place of one."""
        items = items_of(node)
        scopes = [scope]
        for item in items:
            scopes.append(scopes[-1] | {item.name} if isinstance(item, Declare) else scopes[-1])
        entry = self.spot((*path, len(items)), scopes[-1], following)
        for at in reversed(range(len(items))):
            entry = self.statement(items[at], (*path, at), scopes[at], entry, around)
            entry = self.spot((*path, at), scopes[at], entry)
        return self.unset(items, entry)

    def unset(self, items: tuple[Stmt, ...], following: int) -> int:
        """The entry of a block makes its locals unset."""
        for item in items:
            if isinstance(item, Declare):
                following = self.node(Event.UNSET, following, name=item.name)
        return following

    def spot(self, path: Path, scope: frozenset[str], following: int) -> int:
        """A place for a statement."""
        self.nodes.append(Node(Event.SPOT, [following], path=path, scope=scope))
        return len(self.nodes) - 1

    def statement(self, node: Stmt, path: Path, scope: frozenset[str], following: int, around: _Around) -> int:
        """A statement, and what comes after it."""
        if isinstance(node, Block):
            return self.body(node, (*path, 0), scope, following, around)
        if isinstance(node, If):
            then = self.body(node.then, (*path, 0), scope, following, around)
            otherwise = following
            if node.otherwise is not None or not leaves(node.then):
                otherwise = self.body(node.otherwise, (*path, 1), scope, following, around)
            return self.condition(node.condition, then, otherwise)
        if isinstance(node, (While, Do, For)):
            return self.loop(node, path, scope, following)
        if isinstance(node, Switch):
            return self.switch(node, path, scope, following, around)
        if isinstance(node, (Case, Label, Jump)):
            return self.jump(node, following, around)
        if isinstance(node, Return):
            return self.end if node.value is None else self.expression(node.value, self.end)
        if isinstance(node, Declare):
            if node.value is None:
                return self.node(Event.DECLARED, following, name=node.name)
            return self.expression(node.value, self.write(node.name, node.value, node, following))
        return self.expressions(parts(node), following)

    def loop(self, node: While | Do | For, path: Path, scope: frozenset[str], following: int) -> int:
        """A loop."""
        top = self.node(Event.NOTHING)
        again = top
        if isinstance(node, Do):
            again = self.condition(node.condition, top, following)
        elif isinstance(node, For) and node.step is not None:
            again = self.expression(node.step, top)
        first = self.body(node.body, (*path, 0), scope, again, _Around(following, again))
        if not isinstance(node, Do) and node.condition is not None:
            first = self.condition(node.condition, first, following)
        self.nodes[top].next.append(first)
        return top

    def switch(self, node: Switch, path: Path, scope: frozenset[str], following: int, around: _Around) -> int:
        """A `switch`: its value leads to a case, or after it where there is no default."""
        inner = _Around(following, around.again)
        self.body(node.body, (*path, 0), scope, following, inner)
        choice = self.node(Event.NOTHING, *inner.cases, *([] if inner.has_default else [following]))
        return self.expression(node.value, self.unset(items_of(node.body), choice))

    def jump(self, node: Case | Label | Jump, following: int, around: _Around) -> int:
        """A place that jumps lead to, or a jump."""
        if isinstance(node, Label):
            self.nodes[self.labels[node.name]].next.append(following)
            return self.labels[node.name]
        if isinstance(node, Case):
            around.cases.append(self.node(Event.NOTHING, following))
            around.has_default = around.has_default or node.value is None
            return around.cases[-1]
        if node.word in ("break", "continue"):
            return around.after if node.word == "break" else around.again
        return self.labels[node.word.removeprefix("goto ")]

    # ---- expressions

    def expressions(self, nodes: list[Expr | Stmt], following: int) -> int:
        """Expressions from left to right."""
        for node in reversed(nodes):
            assert isinstance(node, Expr)
            following = self.expression(node, following)
        return following

    def expression(self, node: Expr, following: int) -> int:
        """An expression, and what comes after it."""
        if isinstance(node, Name):
            return self.node(Event.READ, following, name=node.text)
        if isinstance(node, Conditional):
            then, otherwise = self.expression(node.then, following), self.expression(node.otherwise, following)
            return self.condition(node.condition, then, otherwise)
        if isinstance(node, Binary) and node.op in ("&&", "||"):
            return self.condition(node, following, following)
        if isinstance(node, (Assign, Step)):
            return self.store(node, following)
        if node in (STOP.expr, STOP_VALUE):
            return self.end
        return self.expressions(parts(node), following)

    def store(self, node: Assign | Step, following: int) -> int:
        """A store. That of an operator reads the old value before the right side."""
        value = [node.value] if isinstance(node, Assign) else []
        if not isinstance(node.target, Name):
            return self.expressions([*parts(node.target), *value], following)
        if isinstance(node, Assign) and node.op == "=":
            return self.expression(node.value, self.write(node.target.text, node.value, node, following))
        following = self.node(Event.WRITTEN, following, name=node.target.text, writer=node)
        return self.expressions([node.target, *value], following)

    def write(self, name: str, value: Expr, writer: Expr | Stmt, following: int) -> int:
        """A local gets a value."""
        while isinstance(value, Assign) and value.op == "=":
            value = value.value
        event = Event.CLEARED if value in (NULL, ZERO) else Event.WRITTEN
        return self.node(event, following, name=name, writer=writer)

    def condition(self, node: Expr, then: int, otherwise: int) -> int:
        """An expression on which a branch depends."""
        if isinstance(node, Unary) and node.op == "!":
            return self.condition(node.operand, otherwise, then)
        if isinstance(node, Binary) and node.op == "&&":
            return self.condition(node.left, self.condition(node.right, then, otherwise), otherwise)
        if isinstance(node, Binary) and node.op == "||":
            return self.condition(node.left, then, self.condition(node.right, then, otherwise))
        if isinstance(node, Conditional):
            first, second = self.condition(node.then, then, otherwise), self.condition(node.otherwise, then, otherwise)
            return self.condition(node.condition, first, second)
        if node in (NULL, ZERO, ONE):
            return then if node == ONE else otherwise
        return self.expression(node, self.node(Event.NOTHING, *dict.fromkeys((then, otherwise))))


def items_of(node: Stmt | None) -> tuple[Stmt, ...]:
    """The statements of a block, or of what stands in place of one."""
    if node is None:
        return ()
    return node.items if isinstance(node, Block) else (node,)


def leaves(node: Stmt) -> bool:
    """Nothing comes after the statement."""
    items = items_of(node)
    if isinstance(node, If):
        return node.otherwise is not None and leaves(node.then) and leaves(node.otherwise)
    return bool(items) and (isinstance(items[-1], (Jump, Return)) or items[-1] == STOP
                            or isinstance(items[-1], (Block, If)) and leaves(items[-1]))
