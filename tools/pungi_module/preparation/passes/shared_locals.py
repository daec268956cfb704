"""Locals of blocks that are never alive together share a variable: where a function has more than may be."""

from __future__ import annotations

from ..text.rewrite import bottom_up
from ..text.subset import Assign, Block, Declare, Expr, Expression, Name, Stmt, parts


def with_shared_locals(body: Block) -> Block:
    """The body in which the locals of inner blocks share variables at its top."""
    sharing = _Sharing()
    for item in body.items:
        if not isinstance(item, Declare):
            sharing.assign(item)
    renamed = [bottom_up(item, sharing.rename) for item in body.items]
    start = [Declare(words, name) for name, words in sharing.shared.items()]
    return Block((*start, *(item for item in renamed if item is not None)), place=body.place)


class _Sharing:
    """Which local has which variable."""

    def __init__(self) -> None:
        #: The variables that no block around here uses, by the words of their type.
        self.free: dict[str, list[str]] = {}
        self.shared: dict[str, str] = {}
        self.names: dict[str, str] = {}

    def assign(self, node: Stmt) -> None:
        """Gives each local of the blocks in a statement a variable, which is free again where its block ends."""
        if not isinstance(node, Block):
            for part in parts(node):
                if isinstance(part, Stmt):
                    self.assign(part)
            return
        used: list[tuple[str, str]] = []
        for item in node.items:
            if isinstance(item, Declare):
                used.append((item.words, self.variable(item)))
            else:
                self.assign(item)
        for words, name in used:
            self.free.setdefault(words, []).append(name)

    def variable(self, node: Declare) -> str:
        """A variable for a local."""
        free = self.free.get(node.words)
        name = free.pop() if free else node.name
        self.shared.setdefault(name, node.words)
        self.names[node.name] = name
        return name

    def rename(self, node: Expr | Stmt) -> Expr | Stmt | None:
        """The node with the variables' names; a declaration becomes an assignment."""
        if isinstance(node, Name) and node.text in self.names:
            return Name(self.names[node.text], place=node.place)
        if isinstance(node, Declare) and node.name in self.names:
            if node.value is None:
                return None
            return Expression(Assign(Name(self.names[node.name]), "=", node.value), place=node.place)
        return node
