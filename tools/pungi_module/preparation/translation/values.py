"""What an expression of the source becomes: a value, and a place that can be read and stored into."""

from __future__ import annotations

from dataclasses import dataclass, field
from enum import Enum

from ..text.rows_used import Effect
from ..text.subset import NULL, Expr, Expression, Stmt, is_pure
from ..types.c_types import VOID, CType
from ..types.kinds import Kind


class Cannot(Exception):
    """A function has something that the preparation does not express."""


@dataclass
class Value:
    """A translated expression: `code` where its value is kept, else the effects that come before any value."""

    kind: Kind
    type: CType
    code: Expr | None = None
    effects: list[Effect] = field(default_factory=list)
    #: Of kind VOID: what is done, as statements.
    statements: list[Stmt] = field(default_factory=list)
    constant: int | None = None
    is_null: bool = False
    #: The object that a cast to `void *` was made from.
    object_before: "Value | None" = None

    @property
    def is_pure(self) -> bool:
        """Nothing happens where it is evaluated."""
        if self.code is not None:
            return is_pure(self.code)
        return not self.effects and not self.statements


def opaque(kind: CType, effects: list[Effect] | None = None) -> Value:
    """A value that is not kept."""
    return Value(Kind.OPAQUE, kind, effects=effects or [])


def kept(kind: Kind, of_type: CType, code: Expr) -> Value:
    """A value that is kept."""
    return Value(kind, of_type, code)


def null(kind: Kind, of_type: CType) -> Value:
    """NULL."""
    return Value(kind, of_type, NULL, is_null=True)


def done(*statements: Stmt) -> Value:
    """A call without a value."""
    return Value(Kind.VOID, VOID, statements=list(statements))


def done_by(effects: list[Effect]) -> Value:
    """Only the effects, without a value."""
    return done(*(Expression(expr, place=expr.place) for expr, _ in effects))


class Form(Enum):
    """How much of a place is kept."""

    #: A variable or field of the printed text.
    KEPT = "kept"
    #: Memory that is not kept.
    LOST = "lost"
    #: An element of an array of objects that is not kept apart from the others.
    ELEMENT = "element"
    #: The head of an object: its type, count or a field of PyTypeObject.
    HEAD = "head"
    #: A whole struct that a pointer points to.
    WHOLE = "whole"


@dataclass
class Target:
    """A place in memory: what is done to find it, and its printed form where it is kept."""

    form: Form
    type: CType
    code: Expr | None = None
    effects: list[Effect] = field(default_factory=list)
    base: Value | None = None
    member: str = ""
    #: Of a kept field or global: the word that each store to it names (subset.Assign).
    slot: str | None = None
    #: A field that holds no reference of its own: an author says so, or what it points to has no count.
    is_borrowed: bool = False


@dataclass
class Variable:
    """A parameter or local: printed under a name, or in parts, or not at all."""

    name: str
    type: CType
    kind: Kind
    is_printed: bool = True
    #: The printed parts of a struct or array, by their path or index, with their types.
    members: dict[str, tuple[str, CType]] | None = None
    #: A static local: it stands as a global.
    is_static: bool = False
