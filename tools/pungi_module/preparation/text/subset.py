"""The tree of the printed text: expressions and statements of the subset of C that Pungi reads."""

from __future__ import annotations

import re
from dataclasses import dataclass, field, fields
from functools import cache
from typing import Iterator

from ...model import Place

#: The types of the fields that have parts of a tree.
PART = re.compile(r"\b(Expr|Stmt|Block)\b")


@dataclass(frozen=True)
class Expr:
    """An expression; `place` is where it stands in the source."""

    place: Place | None = field(default=None, kw_only=True, compare=False)


@dataclass(frozen=True)
class Name(Expr):
    """A variable, or an object that Python's headers declare."""

    text: str


@dataclass(frozen=True)
class Literal(Expr):
    """A number, a text, `NULL`, or another word that is printed as it is, as the `&Box_Type` of a type object."""

    text: str


@dataclass(frozen=True)
class Arrow(Expr):
    """`base->field`."""

    base: Expr
    member: str


@dataclass(frozen=True)
class Call(Expr):
    """A call of a row. A harmless one makes no reference and takes none over, so that it may be left out where its
    value is not used."""

    name: str
    arguments: tuple[Expr, ...] = ()
    is_harmless: bool = field(default=False, kw_only=True, compare=False)


@dataclass(frozen=True)
class Unary(Expr):
    """An operator before its operand."""

    op: str
    operand: Expr


@dataclass(frozen=True)
class Binary(Expr):
    """An operator between its operands. `word` is the type of an arithmetic: `int` or `long`."""

    op: str
    left: Expr
    right: Expr
    word: str = field(default="int", kw_only=True, compare=False)


@dataclass(frozen=True)
class Conditional(Expr):
    """`condition ? then : otherwise`."""

    condition: Expr
    then: Expr
    otherwise: Expr


@dataclass(frozen=True)
class Assign(Expr):
    """`target op value`. `slot` names a field or global that holds a reference of its own, the same for each store;
    `word` is the type of what an arithmetic is assigned to: `int` or `long`."""

    target: Expr
    op: str
    value: Expr
    slot: str | None = None
    word: str = field(default="int", kw_only=True, compare=False)


@dataclass(frozen=True)
class Step(Expr):
    """`++x`, `x--` and so on."""

    op: str
    target: Expr
    is_prefix: bool


@dataclass(frozen=True)
class CastTo(Expr):
    """`(words)operand`."""

    words: str
    operand: Expr


@dataclass(frozen=True)
class UnsetFields(Expr):
    """Any object field of the variable's struct holds something: it becomes tests once all fields are known."""

    key: str
    base: Expr


NULL = Literal("NULL")
ZERO = Literal("0")
ONE = Literal("1")
EMPTY_TEXT = Literal('""')


@dataclass(frozen=True)
class Stmt:
    """A statement; `place` is where it stands in the source."""

    place: Place | None = field(default=None, kw_only=True, compare=False)


@dataclass(frozen=True)
class Expression(Stmt):
    """An expression that is evaluated for what it does."""

    expr: Expr


@dataclass(frozen=True)
class Declare(Stmt):
    """A local, with the words of its type."""

    words: str
    name: str
    value: Expr | None = None


@dataclass(frozen=True)
class Block(Stmt):
    """Statements in braces. A body that stands in place of a call is printed on the line of the call."""

    items: tuple[Stmt, ...] = ()
    is_in_place: bool = field(default=False, kw_only=True)


@dataclass(frozen=True)
class If(Stmt):
    """`if`, perhaps with `else`."""

    condition: Expr
    then: Stmt
    otherwise: Stmt | None = None


@dataclass(frozen=True)
class While(Stmt):
    """`while`."""

    condition: Expr
    body: Stmt


@dataclass(frozen=True)
class Do(Stmt):
    """`do .. while`."""

    body: Stmt
    condition: Expr


@dataclass(frozen=True)
class For(Stmt):
    """`for (; condition; step)`; what comes first stands before it."""

    condition: Expr | None
    step: Expr | None
    body: Stmt


@dataclass(frozen=True)
class Switch(Stmt):
    """`switch` over a block."""

    value: Expr
    body: Block


@dataclass(frozen=True)
class Case(Stmt):
    """`case value:`, or `default:` where there is none."""

    value: int | None


@dataclass(frozen=True)
class Label(Stmt):
    """`name: ;`."""

    name: str


@dataclass(frozen=True)
class Jump(Stmt):
    """`break`, `continue`, or `goto` a label."""

    word: str


@dataclass(frozen=True)
class Return(Stmt):
    """`return`, perhaps with a value."""

    value: Expr | None = None


@dataclass(frozen=True)
class EndOfObject(Stmt):
    """An object is freed: it becomes the end of its fields once all fields are known."""

    key: str | None
    base: Expr
    gives_type: bool
    is_made: bool


@cache
def part_words(kind: type[Expr | Stmt]) -> tuple[str, ...]:
    """The fields of a class that have expressions and statements, in the order of their evaluation."""
    return tuple(field.name for field in fields(kind) if PART.search(str(field.type)))


def parts(node: Expr | Stmt) -> list[Expr | Stmt]:
    """The expressions and statements directly in this one, in the order of their evaluation."""
    found: list[Expr | Stmt] = []
    for word in part_words(type(node)):
        value = getattr(node, word)
        if type(value) is tuple:
            found += value
        elif value is not None:
            found.append(value)
    return found


def walk(node: Expr | Stmt) -> Iterator[Expr | Stmt]:
    """The node and all below it, in the order of the text."""
    waiting = [node]
    while waiting:
        node = waiting.pop()
        yield node
        waiting += parts(node)[::-1]


def is_pure(expr: Expr) -> bool:
    """The expression changes nothing and calls nothing that counts."""
    return not any(isinstance(node, (Assign, Step)) or isinstance(node, Call) and not node.is_harmless
                   for node in walk(expr))


STOP = Expression(Call("Py_INCREF", (NULL,)))
"""A run that comes here is at its end: `Py_INCREF(NULL)` is one that Pungi does not go on with."""

STOP_VALUE = Call("Py_NewRef", (NULL,))
"""The same as an expression."""


def both(effects: list[Stmt], statement: Stmt) -> Stmt:
    """Statements and one more, as one."""
    return Block((*effects, statement)) if effects else statement
