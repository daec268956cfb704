"""Arithmetic whose result Pungi does not follow: it becomes any number.

Pungi follows a constant, an unknown number, and an unknown number plus or minus a constant. A comparison, a test and
the value of a call that only says whether it succeeds are constants along each path.
"""

from __future__ import annotations

from dataclasses import replace

from ...model import Place
from ..text.known_names import BUILTIN_ROWS
from ..text.rewrite import bottom_up
from ..text.rows_used import RowsUsed
from ..text.subset import (Assign, Binary, Block, Call, CastTo, Conditional, Declare, Expr, Literal, Name, Step, Stmt,
    Unary, walk)
from ..translation.values import Variable
from ..types.kinds import Kind

ARITHMETIC = ("+", "-", "*", "/", "%")

#: Results of rows of which each path takes one.
DECIDED = ("status", "truth")


class Arithmetic:
    """The arithmetic of one function's body."""

    def __init__(self, rows: RowsUsed, variables: dict[str, Variable]) -> None:
        self.rows = rows
        self.variables = variables
        #: The locals that are a constant along each path.
        self.constants: set[str] = set()
        #: Where arithmetic became any number, with its operator.
        self.replaced: dict[Place | None, str] = {}

    def body(self, body: Block) -> Block:
        """The body with what is not followed replaced."""
        self.constants = self._constant_locals(body)
        return bottom_up(body, self._change)

    def left_in(self, body: Block) -> dict[Place, str]:
        """The places of arithmetic that still stand in a later form of the body, with the operators."""
        places = {node.place for node in walk(body) if isinstance(node, Call)}
        return {place: op for place, op in self.replaced.items() if place is not None and place in places}

    def _change(self, node: Expr | Stmt) -> Expr | Stmt | None:
        if isinstance(node, Binary) and node.op in ARITHMETIC:
            if not self._is_followed(node.op, node.left, node.right):
                return self._any_number(node, [node.left, node.right])
        elif isinstance(node, Assign) and node.op != "=":
            if not self._is_followed(node.op[:-1], node.target, node.value):
                return Assign(node.target, "=", self._any_number(node, [node.value]), place=node.place)
        return node

    def _any_number(self, node: Binary | Assign, operands: list[Expr]) -> Expr:
        """Any number of the arithmetic's type, after what happens in its operands."""
        self.replaced[node.place] = node.op
        found = self.rows.generic(node.word, [(operand, Kind.LONG) for operand in operands])
        return replace(found, place=node.place)

    def _is_followed(self, op: str, left: Expr, right: Expr) -> bool:
        """The result is a constant, or an unknown number and a constant."""
        if op == "+":
            return self._is_constant(left) or self._is_constant(right)
        return self._is_constant(right) and (op == "-" or self._is_constant(left))

    def _is_constant(self, node: Expr) -> bool:
        """The number is a constant along each path."""
        if isinstance(node, Name):
            return node.text in self.constants
        if isinstance(node, Binary) and node.op in ARITHMETIC:
            return self._is_constant(node.left) and self._is_constant(node.right)
        if isinstance(node, Conditional):
            return self._is_constant(node.then) and self._is_constant(node.otherwise)
        if isinstance(node, CastTo):
            return self._is_constant(node.operand)
        if isinstance(node, Assign):
            return self._is_constant(node.value) and (node.op == "=" or self._is_constant(node.target))
        if isinstance(node, Step):
            return self._is_constant(node.target)
        if isinstance(node, Call):
            row = self.rows.rows.get(node.name) or BUILTIN_ROWS.get(node.name)
            return row is not None and row.result in DECIDED
        return isinstance(node, (Literal, Binary, Unary))

    def _constant_locals(self, body: Block) -> set[str]:
        """The locals that are set to constants alone, and from locals of that sort."""
        sources: list[tuple[str, Expr]] = []
        declared = set()
        for node in walk(body):
            if isinstance(node, Declare):
                declared.add(node.name)
                sources += [(node.name, node.value)] if node.value is not None else []
            elif isinstance(node, Assign) and isinstance(node.target, Name):
                sources.append((node.target.text, node.value))
        self.constants = {name for name in declared if name in self.variables and not self.variables[name].is_static}
        while True:
            others = {name for name, value in sources if name in self.constants and not self._is_constant(value)}
            if not others:
                return self.constants
            self.constants -= others
