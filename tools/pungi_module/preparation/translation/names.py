"""Constants, names, and reads of fields and elements."""

from __future__ import annotations

import re

from pycparser import c_ast

from ...model import Row
from ..calls.freed import frees_something
from ..text.known_names import STATICS, STATIC_TYPES
from ..text.subset import EMPTY_TEXT, Arrow, Call, CastTo, Literal, Name
from ..types.c_types import (INT, LONG, OBJECT, OTHER, TEXT, TYPE_OBJECT, UNSIGNED_INT, UNSIGNED_LONG, Array, CType,
    FunctionType, Pointer, decayed)
from ..types.constants import GREATEST, character
from ..types.kinds import HEAD_TAG, Kind
from .conversions import any_value, effects_of, ordered
from .handlers import expression
from .targets import element, member, named, variable_value
from .translation import Translation
from .values import Form, Target, Value, kept, null, opaque

#: Texts longer than this are printed as empty ones: their bytes have no meaning.
TEXT_LIMIT = 60

TYPE_ROW = Row(("object",), "borrowed_sure")


def number(value: int | None, kind: CType | None = None) -> Value:
    """A constant."""
    if value is None or not -GREATEST <= value <= GREATEST:
        return opaque(kind or UNSIGNED_LONG)
    is_int = -2 ** 31 < value < 2 ** 31
    code = Literal(str(value) if value >= 0 else "(-%d)" % -value)
    return Value(Kind.INT if is_int else Kind.LONG, kind or (INT if is_int else LONG), code, constant=value)


@expression(c_ast.Constant)
def constant_value(t: Translation, node: c_ast.Constant) -> Value:
    """A number, a character or a text."""
    if node.type == "string":
        plain = len(node.value) <= TEXT_LIMIT and re.fullmatch(r'"(?:[^"\\]|\\[nt"\\])*"', node.value)
        readable = plain and node.value.isascii() and node.value.isprintable()
        return kept(Kind.TEXT, TEXT, Literal(node.value) if readable else EMPTY_TEXT)
    if node.type == "char":
        return number(character(node.value), INT)
    value = t.constant(node)
    if value is None:
        return opaque(OTHER)
    suffix = re.search(r"[uUlL]*$", node.value).group().lower()
    if "u" in suffix or "unsigned" in node.type:
        return number(value, UNSIGNED_LONG if "l" in suffix or value >= 2 ** 32 else UNSIGNED_INT)
    return number(value, LONG if "l" in suffix else None)


@expression(c_ast.ID)
def name_value(t: Translation, node: c_ast.ID) -> Value:
    """A variable, an enumerator, an object of Python's or a function."""
    variable = t.lookup(node.name)
    if variable is not None:
        found = variable_value(t, variable, node)
        if found is not None:
            return found
        if isinstance(variable.type, Array):
            kind = decayed(variable.type)
            if t.kind(kind) == Kind.OBJECT:
                return kept(Kind.OBJECT, kind, t.generic("sure"))
            return kept(Kind.TEXT, kind, EMPTY_TEXT)
        return opaque(variable.type)
    if node.name in t.types.enumerators:
        return number(t.types.enumerators[node.name], INT)
    if node.name in STATICS and node.name not in STATIC_TYPES:
        return kept(Kind.OBJECT, OBJECT, Name(node.name, place=t.place(node)))
    if node.name in t.module.prototypes:
        return kept(Kind.TEXT, Pointer(t.types.of(t.module.prototypes[node.name])), EMPTY_TEXT)
    if node.name in t.module.globals:
        return global_value(t, node)
    if node.name in ("__func__", "__FUNCTION__", "__PRETTY_FUNCTION__"):
        return kept(Kind.TEXT, TEXT, EMPTY_TEXT)
    return opaque(OTHER)


def global_value(t: Translation, node: c_ast.ID) -> Value:
    """A variable at file level."""
    found = named(t, node)
    if found.form == Form.LOST and t.kind(decayed(found.type)) == Kind.OBJECT:
        if isinstance(found.type, Array):
            return kept(Kind.OBJECT, decayed(found.type), t.generic("sure"))
        if node.name.startswith("Py"):
            return kept(Kind.OBJECT, found.type, t.generic("borrowed"))
    return read(t, found, node)


@expression(c_ast.StructRef)
def member_value(t: Translation, node: c_ast.StructRef) -> Value:
    """A member."""
    return read(t, member(t, node), node)


@expression(c_ast.ArrayRef)
def element_value(t: Translation, node: c_ast.ArrayRef) -> Value:
    """An element."""
    return read(t, element(t, node.name, node.subscript), node)


def read(t: Translation, place: Target, node: c_ast.Node) -> Value:
    """What stands at a place."""
    if place.form == Form.KEPT:
        return kept(t.kind(place.type), place.type, place.code)
    if place.form == Form.HEAD:
        if place.member == "ob_type":
            return type_of(t, place.base, node)
        return any_value(t, place.type, place.effects)
    if place.form == Form.WHOLE:
        return opaque(place.type, place.effects)
    if place.form == Form.ELEMENT and not isinstance(place.type, Array):
        t.assume("element", "an element is any borrowed object", node)
        return kept(Kind.OBJECT, place.type, t.generic("borrowed", place.effects))
    if isinstance(place.type, (Array, FunctionType)):
        kind = decayed(place.type)
        if t.kind(kind) == Kind.OBJECT:
            return kept(Kind.OBJECT, kind, t.generic("sure", place.effects))
        return ordered(t, place.effects, kept(Kind.TEXT, kind, EMPTY_TEXT))
    if t.kind(place.type) == Kind.OBJECT:
        t.assume("object read from memory", "any borrowed object", node)
    return any_value(t, place.type, place.effects)


def type_of(t: Translation, value: Value, node: c_ast.Node) -> Value:
    """The type of an object, which lives while the object does; where an object is freed, its reference to its type is
    a field."""
    base = value.code
    while isinstance(base, CastTo):
        base = base.operand
    if isinstance(base, Name) and frees_something(t.node.body):
        t.state.use_head()
        head = Arrow(CastTo("struct %s *" % HEAD_TAG, base), "t", place=t.place(node))
        return kept(Kind.OBJECT, TYPE_OBJECT, head)
    name = t.state.rows.name("Py_TYPE", TYPE_ROW)
    return kept(Kind.OBJECT, TYPE_OBJECT, Call(name, (value.code,), place=t.place(node), is_harmless=True))


def is_null_constant(t: Translation, node: c_ast.Node) -> bool:
    """`0`, or `NULL` as headers define it."""
    while isinstance(node, c_ast.Cast):
        node = node.expr
    return t.constant(node) == 0


def effect_list(t: Translation, nodes: list[c_ast.Node]) -> list:
    """What happens where the expressions are evaluated, in order."""
    found = []
    for node in nodes:
        found += effects_of(t, t.value(node))
    return found


def null_of(t: Translation, kind: CType) -> Value:
    """NULL of a pointer type."""
    of_kind = t.kind(kind)
    return null(of_kind if of_kind in (Kind.OBJECT, Kind.TEXT) else Kind.TEXT, kind)
