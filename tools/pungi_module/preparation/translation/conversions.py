"""From one kind of value to another, and the order of effects."""

from __future__ import annotations

from pycparser import c_ast

from ..text.rows_used import Effect
from ..text.subset import EMPTY_TEXT, NULL, ONE, ZERO, Call, Conditional, Expr, Expression, Name, Unary
from ..types.c_types import OTHER, VOID, CType, InUnion, Number
from ..types.kinds import Kind
from .translation import Translation
from .values import Cannot, Value, kept, opaque

#: Calls that only change a count, as calls with a value.
COUNT_VALUES = {"Py_INCREF": "Py_NewRef", "Py_XINCREF": "Py_XNewRef"}


def effects_of(t: Translation, value: Value) -> list[Effect]:
    """What happens where a value is evaluated."""
    if value.kind == Kind.VOID:
        return [effect_of_statement(t, item) for item in value.statements]
    if value.code is None:
        return value.effects
    return [] if value.is_pure else [(value.code, value.kind)]


def effect_of_statement(t: Translation, statement: object) -> Effect:
    """A call without a value as an expression that has one."""
    if not isinstance(statement, Expression):
        raise Cannot("a statement inside an expression")
    expr = statement.expr
    if isinstance(expr, Call):
        if expr.name in COUNT_VALUES:
            return Call(COUNT_VALUES[expr.name], expr.arguments, place=expr.place), Kind.OBJECT
        if expr.name in ("Py_DECREF", "Py_XDECREF"):
            return t.state.rows.take(expr.arguments[0]), Kind.OBJECT
        row = t.state.rows.rows.get(expr.name)
        if expr.name in t.module.functions:
            raise Cannot("a call without a value inside an expression")
        if row is None or row.result == "void":
            return t.state.rows.with_value(expr), Kind.OBJECT
        return expr, {"text": Kind.TEXT, "int": Kind.INT, "status": Kind.INT, "truth": Kind.INT, "long": Kind.LONG,
                      "size": Kind.SIZE}.get(row.result, Kind.OBJECT)
    return expr, Kind.OBJECT


def ordered(t: Translation, effects: list[Effect], value: Value) -> Value:
    """The value after the effects."""
    if not effects:
        return value
    if value.code is None:
        return opaque(value.type if value.kind != Kind.VOID else OTHER, effects + effects_of(t, value))
    rest = NULL if value.kind in (Kind.OBJECT, Kind.TEXT) else ZERO
    return kept(value.kind, value.type, Conditional(t.generic("null", effects), rest, value.code))


def as_kind(
    t: Translation, value: Value, kind: Kind, node: c_ast.Node | None = None, target: CType | None = None
) -> Expr:
    """The printed value as one of this kind, and of the target's type where that is given."""
    if value.kind == Kind.VOID:
        raise Cannot("the value of a call that has none")
    if kind.is_number:
        if value.kind.is_number:
            return value.code
        return t.generic(kind.number_word, effects_of(t, value))
    if kind == Kind.TEXT:
        return as_text(t, value)
    if kind == Kind.OBJECT:
        return as_object(t, value, node, target)
    raise Cannot("a value of kind " + kind.value)


def as_text(t: Translation, value: Value) -> Expr:
    """The value as a text: NULL where it is NULL."""
    if value.is_null or value.kind == Kind.TEXT:
        return value.code
    if value.kind == Kind.OBJECT:
        return Conditional(value.code, EMPTY_TEXT, NULL)
    if value.constant == 0:
        return NULL
    return t.generic("text", effects_of(t, value))


def as_object(t: Translation, value: Value, node: c_ast.Node | None, target: CType | None = None) -> Expr:
    """The value as an object."""
    if value.is_null or value.kind == Kind.OBJECT:
        return value.code
    if value.constant == 0:
        return NULL
    if value.object_before is not None:
        return value.object_before.code
    if value.kind == Kind.TEXT:
        if target is not None and t.kinds.is_uncounted(target):
            t.assume("pointer to a struct", "a pointer that is not kept becomes any struct of the module", node)
        else:
            t.assume("pointer to object", "a pointer that is not kept becomes a borrowed object", node)
        if isinstance(value.code, Name):
            return Conditional(value.code, t.generic("sure"), NULL)
    return t.generic("borrowed", effects_of(t, value))


def condition(t: Translation, value: Value) -> Expr:
    """The value as a condition."""
    if value.kind == Kind.VOID:
        raise Cannot("the value of a call that has none")
    if value.code is not None:
        return value.code
    return t.generic("choice", effects_of(t, value))


def fit(t: Translation, value: Value, kind: CType, node: c_ast.Node | None = None) -> Expr:
    """The value converted as in an assignment to this type (C11 6.5.16.1)."""
    if isinstance(kind, Number):
        return fit_number(t, value, kind)
    return as_kind(t, value, t.kind(kind), node, kind)


def fit_number(t: Translation, value: Value, kind: Number) -> Expr:
    """The value as a number of this type; any number where it may not fit."""
    if kind.bits == 1:
        return fit_bool(t, value, kind)
    if value.kind.is_number:
        if value.constant is not None and kind.bounds[0] <= value.constant <= kind.bounds[1]:
            return value.code
        held = isinstance(value.type, Number) and (
            kind.holds(value.type) or kind.is_natural and value.type.is_natural)
        if held and value.constant is None:
            return value.code
    return t.generic(t.kind(kind).number_word, effects_of(t, value))


def fit_bool(t: Translation, value: Value, kind: Number) -> Expr:
    """The value as a `bool`."""
    if value.code is not None:
        if value.constant is not None:
            return ONE if value.constant else ZERO
        return value.code if value.type == kind else Unary("!", Unary("!", value.code))
    return Unary("!", t.generic("choice", effects_of(t, value)))


def any_value(t: Translation, kind: CType, effects: list[Effect], ownership: str = "borrowed") -> Value:
    """Any value of a type, after the effects."""
    if isinstance(kind, InUnion):
        kind = kind.member
    of_kind = t.kind(kind)
    if of_kind.is_number:
        if isinstance(kind, Number) and kind.is_natural:
            return kept(of_kind, kind, t.generic(of_kind.number_word, effects))
        return opaque(kind, effects)
    if of_kind == Kind.TEXT:
        return kept(of_kind, kind, t.generic("text", effects))
    if of_kind == Kind.OBJECT:
        return kept(of_kind, kind, t.generic(ownership, effects))
    return opaque(kind if kind != VOID else OTHER, effects)
