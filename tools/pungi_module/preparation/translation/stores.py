"""Assignments, and the steps `++` and `--`."""

from __future__ import annotations

from pycparser import c_ast

from ..calls.tables import OWNING_FIELDS
from ..text.rows_used import Effect
from ..text.subset import NULL, Assign, Call, Expr, Step
from ..types.c_types import CType, Number, common
from ..types.kinds import Kind
from .conversions import any_value, effects_of, fit, ordered
from .handlers import expression
from .moves import moved_value
from .targets import target
from .translation import Translation
from .values import Cannot, Form, Target, Value, kept, opaque

#: Operators that are printed as they stand.
KEPT_OPERATORS = ("+", "-", "*", "/", "%")


def store(t: Translation, place: Target, value: Value, node: c_ast.Node) -> Value:
    """An assignment of a value to a place."""
    if value.kind == Kind.VOID:
        raise Cannot("the value of a call that has none")
    if place.form == Form.KEPT:
        return store_kept(t, place, value, node)
    effects = place.effects
    owner = value.object_before if is_element_of_memory(node) else None
    if value.kind == Kind.OBJECT and not value.is_null and (place.form == Form.ELEMENT or owns(place, node)):
        t.assume("stored in an array", "the store takes the reference over", node)
        return after_take(t, effects, value, value)
    if owner is not None and not owner.is_null:
        t.assume("stored in an array", "an object in memory that is not kept: the store takes the reference over", node)
        return after_take(t, effects, owner, value)
    if value.kind == Kind.OBJECT and not value.is_null:
        t.assume("object stored in memory", "the store takes nothing over", node)
    if value.code is not None and (value.is_pure or not effects):
        return ordered(t, effects, value)
    return opaque(place.type, effects + effects_of(t, value))


def store_kept(t: Translation, place: Target, value: Value, node: c_ast.Node) -> Value:
    """An assignment to a variable or field of the printed text."""
    code = fit(t, value, place.type, node)
    slot = place.slot if t.kind(place.type) == Kind.OBJECT else None
    if place.is_borrowed or slot is not None and t.kinds.is_uncounted(place.type):
        # a field that holds no reference of its own: the store counts it itself, and the old content's count goes
        old: list[Effect] = [(t.state.rows.take(place.code), Kind.OBJECT)]
        new = NULL if value.is_null else Call("Py_XNewRef", (code,))
        stored = kept(Kind.OBJECT, place.type, Assign(place.code, "=", new, slot, place=t.place(node)))
        return ordered(t, old, stored)
    return kept(t.kind(place.type), place.type, Assign(place.code, "=", code, slot, place=t.place(node)))


def after_take(t: Translation, effects: list[Effect], taken: Value, value: Value) -> Value:
    """The value, after its reference is taken over."""
    take: Effect = (t.state.rows.take(taken.code), Kind.OBJECT)
    return ordered(t, effects + [take], value) if value.is_pure else opaque(value.type, effects + [take])


def is_element_of_memory(node: c_ast.Node) -> bool:
    """The assignment's target is written as an element."""
    return isinstance(node, c_ast.Assignment) and isinstance(node.lvalue, c_ast.ArrayRef)


def owns(place: Target, node: c_ast.Node) -> bool:
    """The place is a field of a struct of others that owns what is stored in it."""
    if place.member in OWNING_FIELDS:
        return True
    left = node.lvalue if isinstance(node, c_ast.Assignment) else None
    if not isinstance(left, c_ast.StructRef) or left.field.name not in OWNING_FIELDS:
        return False
    # a static type does not own its base (PyType_Ready)
    return left.type == "->" or left.field.name != "tp_base"


def any_number(t: Translation, kind: CType, effects: list[Effect]) -> Expr:
    """Any number of a type's kind."""
    return t.generic(t.kind(kind).number_word, effects)


@expression(c_ast.Assignment)
def assignment(t: Translation, node: c_ast.Assignment) -> Value:
    """`a = b`, `a += b` and so on."""
    from ..calls.allocation import allocated_into, stored_allocation
    from .struct_copies import copied_struct
    if node.op == "=":
        moved = moved_value(t, node, node.rvalue)
        if moved is not None:
            return store(t, target(t, node.lvalue), moved, node)
        made = allocated_into(t, node.lvalue, node.rvalue)
        if made is not None:
            return made
        copied = copied_struct(t, node)
        if copied is not None:
            return copied
        place = target(t, node.lvalue)
        stored = stored_allocation(t, place, node.rvalue, node)
        return stored if stored is not None else store(t, place, t.value(node.rvalue), node)
    return compound(t, node)


def compound(t: Translation, node: c_ast.Assignment) -> Value:
    """`a += b` and the like."""
    place, value = target(t, node.lvalue), t.value(node.rvalue)
    kind = t.kind(place.type)
    if place.form != Form.KEPT:
        return opaque(place.type, place.effects + effects_of(t, value))
    if kind.is_number:
        result = common(place.type, value.type)
        exact = isinstance(place.type, Number) and place.type.is_natural and value.kind.is_number
        if exact and node.op[:-1] in KEPT_OPERATORS and isinstance(result, Number) and result.is_natural:
            return kept(kind, place.type, Assign(place.code, node.op, value.code, word=kind.number_word,
                                                 place=t.place(node)))
        return kept(kind, place.type, Assign(place.code, "=", any_number(t, place.type, effects_of(t, value))))
    if kind == Kind.TEXT:
        return ordered(t, effects_of(t, value), kept(kind, place.type, place.code))
    return kept(kind, place.type, Assign(place.code, "=", t.generic("sure", effects_of(t, value))))


def step(t: Translation, node: c_ast.UnaryOp) -> Value:
    """`++x`, `x--` and so on."""
    place = target(t, node.expr)
    kind = t.kind(place.type)
    if place.form == Form.KEPT and kind.is_number:
        if isinstance(place.type, Number) and place.type.is_natural:
            return kept(kind, place.type, Step(node.op.lstrip("p"), place.code, not node.op.startswith("p")))
        return kept(kind, place.type, Assign(place.code, "=", any_number(t, place.type, [])))
    if place.form == Form.KEPT and kind == Kind.TEXT:
        return kept(kind, place.type, place.code)
    if place.form == Form.KEPT:
        return kept(kind, place.type, Assign(place.code, "=", t.generic("sure")))
    if isinstance(place.type, Number):
        return any_value(t, place.type, place.effects)
    return opaque(place.type, place.effects)
