"""Addresses of places."""

from __future__ import annotations

from pycparser import c_ast

from ..reading.syntax import stripped
from ..text.known_names import STATICS
from ..text.subset import EMPTY_TEXT, Literal
from ..types.c_types import OTHER, TYPE_OBJECT, Array, CType, Pointer, Struct
from ..types.kinds import Kind
from .conversions import ordered
from .targets import target
from .translation import Translation
from .values import Form, Value, kept


def address(t: Translation, node: c_ast.UnaryOp) -> Value:
    """`&place`."""
    place = stripped(node.expr)
    if isinstance(place, c_ast.ID):
        return address_of_name(t, place)
    if isinstance(place, c_ast.UnaryOp) and place.op == "*":
        return t.value(place.expr)
    if isinstance(place, c_ast.StructRef) and place.field.name == "ob_base":
        base = place
        while isinstance(base, c_ast.StructRef) and base.type == ".":
            base = base.name
        if isinstance(base, c_ast.StructRef):
            return t.value(base.name)
    found = target(t, place)
    pointer = Pointer(found.type)
    if t.kind(pointer) != Kind.OBJECT:
        return ordered(t, found.effects, kept(Kind.TEXT, pointer, EMPTY_TEXT))
    if found.form == Form.WHOLE:
        return kept(Kind.OBJECT, pointer, found.base.code)
    t.assume("address of a slot", "a store through the pointer is not seen in the field", node)
    return kept(Kind.OBJECT, pointer, t.generic("sure", found.effects))


def address_of_name(t: Translation, node: c_ast.ID) -> Value:
    """`&name`."""
    variable = t.lookup(node.name)
    kind: CType = OTHER
    if variable is not None:
        kind = variable.type
    elif node.name in t.module.globals:
        kind = t.module.globals[node.name].type
        if kind == Struct("_typeobject"):
            if node.name not in STATICS:
                t.state.type_objects.add(node.name)
            return kept(Kind.OBJECT, TYPE_OBJECT, Literal("&" + node.name))
    elif node.name in t.module.prototypes:
        kind = t.types.of(t.module.prototypes[node.name])
    pointer = Pointer(kind.element if isinstance(kind, Array) else kind)
    if t.kind(pointer) == Kind.OBJECT:
        return kept(Kind.OBJECT, pointer, t.generic("sure"))
    return kept(Kind.TEXT, pointer, EMPTY_TEXT)
