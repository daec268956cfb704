"""New objects: their fields hold nothing at first."""

from __future__ import annotations

from pycparser import c_ast

from ...model import Row
from ..reading.syntax import arguments, called_name, stripped
from ..text.rows_used import LETTERS, WORDS, Effect
from ..text.subset import NULL, STOP_VALUE, Assign, Call, CastTo, Conditional, Expr, Name, UnsetFields, walk
from ..translation.conversions import effects_of
from ..translation.targets import target
from ..translation.translation import Translation
from ..translation.values import Form, Target, Value, kept
from ..types.c_types import CType, Pointer, Struct
from ..types.kinds import Kind
from .freed import MAKING_CALLS, MEMORY_CALLS

#: What is printed for calls that make something; the others make a new object.
PRINTED = {"tp_alloc": "pungi_tp_alloc", **dict.fromkeys(MEMORY_CALLS, "pungi_new_struct")}


def made_struct(t: Translation, node: c_ast.Node, kind: CType) -> CType | None:
    """The type of the object that a call makes, where its struct has fields of its own."""
    inner = stripped(node)
    if called_name(inner) == "pungi_New":
        kind = t.types.of(arguments(inner)[0].to_type)
    if called_name(inner) in MEMORY_CALLS:
        return kind if t.module.is_memory_struct(kind) else None
    is_struct = isinstance(kind, Pointer) and isinstance(kind.target, Struct)
    return kind if is_struct and t.kinds.is_python_object(kind) and t.kinds.tag(kind) else None


def allocation(t: Translation, node: c_ast.Node, kind: CType) -> Value | None:
    """A call that makes an object, as a value of this type."""
    inner = stripped(node)
    name = called_name(inner)
    if name not in MAKING_CALLS | MEMORY_CALLS:
        return None
    of_type = made_struct(t, node, kind)
    if of_type is None:
        return None
    effects: list[Effect] = []
    for argument in arguments(inner):
        if not (name == "pungi_New" and isinstance(argument, c_ast.Cast)):
            value = t.value(argument)
            effects += [(value.code, value.kind)] if value.kind == Kind.OBJECT else effects_of(t, value)
    t.state.use_struct(of_type)
    # memory has no count: what points to it is a borrowed reference
    row = Row(tuple(WORDS[LETTERS[of_kind]] for _, of_kind in effects), "borrowed" if name in MEMORY_CALLS else "new")
    printed = t.state.rows.name(PRINTED.get(name, "pungi_new_object"), row)
    call = Call(printed, tuple(expr for expr, _ in effects), place=t.place(inner))
    return kept(Kind.OBJECT, of_type, CastTo(t.kinds.words(of_type), call))


def allocated_into(t: Translation, left: c_ast.Node, right: c_ast.Node) -> Value | None:
    """The assignment of a new object to a variable, which stops where a field holds something."""
    place = target(t, left) if isinstance(left, c_ast.ID) else None
    if place is None or place.form != Form.KEPT or t.kind(place.type) != Kind.OBJECT:
        return None
    made = allocation(t, right, place.type)
    if made is None:
        return None
    assign = Assign(place.code, "=", as_type(t, made, place.type), place.slot, place=t.place(left))
    if not isinstance(place.code, Name) or place.slot is not None:
        return kept(Kind.OBJECT, place.type, assign)
    t.assume("new object", place.code.text, right)
    return kept(Kind.OBJECT, place.type, with_empty_fields(t, assign, made.type, place))


def stored_allocation(t: Translation, place: Target, right: c_ast.Node, node: c_ast.Node) -> Value | None:
    """The store of a new object into a field or a global, which stops where a field of the object holds something."""
    from ..translation.stores import store
    if place.form != Form.KEPT or place.code is None or any(isinstance(part, Call) for part in walk(place.code)):
        return None
    made = allocation(t, right, place.type)
    if made is None:
        return None
    stored = store(t, place, made, node)
    if stored.code is None:
        return stored
    t.assume("new object", place.member or "a place", right)
    return kept(Kind.OBJECT, place.type, with_empty_fields(t, stored.code, made.type, place))


def as_type(t: Translation, value: Value, kind: CType) -> Expr:
    """The value as one of another pointer type."""
    return value.code if t.kinds.words(value.type) == t.kinds.words(kind) else CastTo(t.kinds.words(kind), value.code)


def with_empty_fields(t: Translation, assign: Expr, made: CType, place: Target) -> Expr:
    """`(x = made) ? (some field holds something ? stop : x) : NULL`."""
    assert isinstance(made, Pointer) and isinstance(made.target, Struct)
    name = place.code
    base: Expr = name
    if t.kinds.words(made) != t.kinds.words(place.type):
        base = CastTo(t.kinds.words(made), name)
    stop: Expr = STOP_VALUE
    if t.kinds.words(place.type) != "PyObject *":
        stop = CastTo(t.kinds.words(place.type), STOP_VALUE)
    return Conditional(assign, Conditional(UnsetFields(made.target.key, base), stop, name), NULL)
