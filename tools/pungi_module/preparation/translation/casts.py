"""Casts, compound literals and lists of initial values."""

from __future__ import annotations

from pycparser import c_ast

from ..text.subset import CastTo
from ..types.c_types import INT, OTHER, VOID, CType, Number, Pointer
from ..types.kinds import Kind
from .conversions import as_kind, effects_of
from .handlers import expression
from .names import null_of
from .translation import Translation
from .values import Value, done, done_by, kept, opaque


@expression(c_ast.Cast)
def cast(t: Translation, node: c_ast.Cast) -> Value:
    """A cast."""
    from ..calls.allocation import allocation
    kind = t.types.of(node.to_type)
    made = allocation(t, node.expr, kind)
    if made is not None:
        return made
    value = t.value(node.expr)
    if kind == VOID:
        return value if value.kind == Kind.VOID else done_by(effects_of(t, value)) if not value.is_pure else done()
    if value.is_null or isinstance(kind, Pointer) and value.constant == 0:
        return null_of(t, kind)
    of_kind = t.kind(kind)
    if of_kind == Kind.OBJECT:
        return cast_to_object(t, value, kind, node)
    if of_kind == Kind.TEXT:
        found = kept(Kind.TEXT, kind, as_kind(t, value, Kind.TEXT, node))
        found.object_before = value if value.kind == Kind.OBJECT else value.object_before
        return found
    if of_kind.is_number:
        return cast_to_number(t, value, kind)
    return opaque(kind, effects_of(t, value))


def cast_to_object(t: Translation, value: Value, kind: CType, node: c_ast.Node) -> Value:
    """A cast to a pointer to an object."""
    if value.object_before is not None:
        value = value.object_before
    if value.kind != Kind.OBJECT:
        return kept(Kind.OBJECT, kind, as_kind(t, value, Kind.OBJECT, node, kind))
    if t.kinds.words(value.type) == t.kinds.words(kind):
        return kept(Kind.OBJECT, kind, value.code)
    t.state.use_struct(kind)
    return kept(Kind.OBJECT, kind, CastTo(t.kinds.words(kind), value.code))


def cast_to_number(t: Translation, value: Value, kind: CType) -> Value:
    """A cast to a number: the number, where it fits."""
    assert isinstance(kind, Number)
    of_kind = t.kind(kind)
    if value.kind.is_number and isinstance(value.type, Number):
        if value.constant is not None:
            if kind.bounds[0] <= value.constant <= kind.bounds[1]:
                return Value(value.kind, kind, value.code, constant=value.constant)
        elif kind.holds(value.type):
            return kept(value.kind, kind, value.code)
        elif kind.is_natural and value.type.is_natural:
            narrower = kind == INT and value.kind != Kind.INT
            return kept(Kind.INT if narrower else value.kind, kind,
                        CastTo("int ", value.code) if narrower else value.code)
    if kind.is_natural:
        return kept(of_kind, kind, t.generic(of_kind.number_word, effects_of(t, value)))
    return opaque(kind, effects_of(t, value))


@expression(c_ast.CompoundLiteral)
def compound_literal(t: Translation, node: c_ast.CompoundLiteral) -> Value:
    """`(struct s){..}`: its values are not kept."""
    return opaque(t.types.of(node.type), t.value(node.init).effects)


@expression(c_ast.InitList)
def initial_values(t: Translation, node: c_ast.InitList) -> Value:
    """`{a, b}`: only what happens is kept."""
    effects = []
    for item in node.exprs or ():
        effects += effects_of(t, t.value(item.expr if isinstance(item, c_ast.NamedInitializer) else item))
    return opaque(OTHER, effects)


@expression(c_ast.Typename)
def type_argument(t: Translation, node: c_ast.Typename) -> Value:
    """A type among the arguments of what was a macro."""
    return opaque(OTHER)
