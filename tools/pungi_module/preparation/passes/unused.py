"""Numbers and texts on which no branch depends: they are left out."""

from __future__ import annotations

from dataclasses import replace

from ..text.known_names import BUILTIN_ROWS
from ..text.rewrite import bottom_up
from ..text.rows_used import RowsUsed
from ..text.subset import (ZERO, Assign, Block, Call, Declare, Expr, Expression, Literal, Name, Step, Stmt, is_pure,
    parts, walk)
from ..translation.values import Variable
from ..types.kinds import Kind

NUMBER_WORDS = ("int", "long", "size")


class Unused:
    """The locals of one function that are only written; where all may go, also its parameters, and stores within
    expressions."""

    def __init__(
        self, rows: RowsUsed, variables: dict[str, Variable], parameters: set[str], may_go: bool = False
    ) -> None:
        self.rows = rows
        self.variables = variables
        self.parameters = parameters
        self.may_go = may_go

    def body(self, body: Block) -> Block:
        """The body without them."""
        body = bottom_up(body, self._without_number_arguments)
        while True:
            unread = self._unread(body)
            body = bottom_up(body, lambda node: self._without(node, unread)) or Block()
            if not unread:
                return body

    def _without_number_arguments(self, node: Expr | Stmt) -> Expr | Stmt:
        """What a call does depends on no number among its arguments."""
        if not isinstance(node, Call):
            return node
        row = self.rows.rows.get(node.name) or BUILTIN_ROWS.get(node.name)
        if row is None:
            return node
        changed = tuple(ZERO if word in NUMBER_WORDS and is_pure(argument) and not isinstance(argument, Literal)
                        else argument for word, argument in zip(row.params, node.arguments))
        return replace(node, arguments=changed) if changed != node.arguments else node

    def _unread(self, body: Block) -> set[str]:
        """The locals of any kind that nothing names, and the numbers and texts that only such locals are set from."""
        reads = _Reads(self.variables, self.may_go)
        reads.count(body)
        live = reads.live()
        found = set()
        declared = {node.name for node in walk(body) if isinstance(node, Declare)} - self.parameters
        written = self.parameters & reads.written if self.may_go else set()
        for name in (declared | written) - live:
            variable = self.variables.get(name)
            if variable is not None and (variable.kind != Kind.OBJECT or name not in reads.written):
                found.add(name)
        return found

    def _without(self, node: Expr | Stmt, names: set[str]) -> Expr | Stmt | None:
        """A statement without its stores into these locals; None where nothing happens in it."""
        if self.may_go and isinstance(node, Assign) and isinstance(node.target, Name) and node.target.text in names:
            return node.value
        if isinstance(node, Block) and not node.items:
            return None
        if isinstance(node, Expression) and is_pure(node.expr):
            return None
        if isinstance(node, Declare) and node.name in names:
            if node.value is None or is_pure(node.value):
                return None
            return Expression(node.value, place=node.place)
        if isinstance(node, Expression) and isinstance(node.expr, (Assign, Step)):
            target = node.expr.target
            if isinstance(target, Name) and target.text in names:
                if isinstance(node.expr, Step) or is_pure(node.expr.value):
                    return None
                return Expression(node.expr.value, place=node.place)
        return node


class _Reads:
    """Which locals are read, and from which others each is set."""

    def __init__(self, variables: dict[str, Variable], within: bool) -> None:
        self.variables = variables
        #: Stores within expressions are looked at too.
        self.within = within
        self.read: set[str] = set()
        self.written: set[str] = set()
        self.sources: dict[str, set[str]] = {}

    def is_value(self, name: str) -> bool:
        """A number or text."""
        return name in self.variables and self.variables[name].kind != Kind.OBJECT

    def count(self, node: Expr | Stmt) -> None:
        """Looks at a statement or expression."""
        if isinstance(node, Expression) and isinstance(node.expr, (Assign, Step)):
            if isinstance(node.expr.target, Name):
                value = node.expr.value if isinstance(node.expr, Assign) else None
                self.set_from(node.expr.target.text, value)
                return
        if isinstance(node, Declare) and node.value is not None:
            self.set_from(node.name, node.value)
            return
        if self.within and isinstance(node, Assign) and node.op == "=" and isinstance(node.target, Name):
            self.written.add(node.target.text)
            self.count(node.value)
            return
        if isinstance(node, Name):
            self.read.add(node.text)
        for part in parts(node):
            self.count(part)

    def set_from(self, name: str, value: Expr | None) -> None:
        """A local is set; what a number is set from is read only if the number is."""
        self.written.add(name)
        if value is None:
            return
        if self.is_value(name) and is_pure(value):
            names = {node.text for node in walk(value) if isinstance(node, Name)}
            self.sources.setdefault(name, set()).update(names)
        else:
            self.count(value)

    def live(self) -> set[str]:
        """The locals on whose values something depends."""
        found, waiting = set(self.read), list(self.read)
        while waiting:
            for name in self.sources.get(waiting.pop(), set()) - found:
                found.add(name)
                waiting.append(name)
        return found
