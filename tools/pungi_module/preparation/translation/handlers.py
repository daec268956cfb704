"""The functions that translate each sort of expression, statement and call, by what they are for."""

from __future__ import annotations

from typing import TYPE_CHECKING, Callable

from pycparser import c_ast

from ..text.subset import Stmt
from .values import Value

if TYPE_CHECKING:
    from .translation import Translation

ExpressionHandler = Callable[["Translation", c_ast.Node], Value]
StatementHandler = Callable[["Translation", c_ast.Node], list[Stmt]]
CallHandler = Callable[["Translation", c_ast.FuncCall, list[c_ast.Node]], Value]

EXPRESSIONS: dict[type, ExpressionHandler] = {}
STATEMENTS: dict[type, StatementHandler] = {}
CALLS: dict[str, CallHandler] = {}


def expression(*nodes: type) -> Callable[[ExpressionHandler], ExpressionHandler]:
    """Enters the translator of these expressions."""
    def enter(handler: ExpressionHandler) -> ExpressionHandler:
        EXPRESSIONS.update(dict.fromkeys(nodes, handler))
        return handler
    return enter


def statement(*nodes: type) -> Callable[[StatementHandler], StatementHandler]:
    """Enters the translator of these statements."""
    def enter(handler: StatementHandler) -> StatementHandler:
        STATEMENTS.update(dict.fromkeys(nodes, handler))
        return handler
    return enter


def call(*names: str) -> Callable[[CallHandler], CallHandler]:
    """Enters the translator of calls of these names."""
    def enter(handler: CallHandler) -> CallHandler:
        CALLS.update(dict.fromkeys(names, handler))
        return handler
    return enter
