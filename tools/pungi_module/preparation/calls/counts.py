"""Calls that change a count: Py_INCREF and the like."""

from __future__ import annotations

from pycparser import c_ast

from ..reading.syntax import stripped
from ..text.subset import NULL, Arrow, Assign, Block, Call, CastTo, Declare, Expr, Expression, Name, Stmt, walk
from ..translation.conversions import as_object, effects_of
from ..translation.handlers import call
from ..translation.stores import store
from ..translation.targets import target
from ..translation.translation import Translation
from ..translation.values import Form, Target, Value, Variable, done, done_by, kept
from ..types.c_types import OBJECT
from ..types.kinds import Kind

#: The call that is printed for each.
COUNT_CALLS = {
    "Py_INCREF": "Py_INCREF", "Py_DECREF": "Py_DECREF", "Py_XINCREF": "Py_XINCREF", "Py_XDECREF": "Py_XDECREF",
    "_Py_INCREF": "Py_INCREF", "_Py_DECREF": "Py_DECREF", "_Py_XINCREF": "Py_XINCREF", "_Py_XDECREF": "Py_XDECREF",
    "Py_IncRef": "Py_XINCREF", "Py_DecRef": "Py_XDECREF", "_Py_DECREF_SPECIALIZED": "Py_DECREF",
    "_Py_DECREF_NO_DEALLOC": "Py_DECREF",
}


def lost_element(t: Translation, node: c_ast.Node) -> Target | None:
    """The place that an argument names, where it is an object in memory that is not kept."""
    inner = stripped(node)
    is_place = isinstance(inner, (c_ast.ArrayRef, c_ast.StructRef))
    if not is_place and not (isinstance(inner, c_ast.UnaryOp) and inner.op == "*"):
        return None
    place = target(t, inner)
    is_lost = place.form == Form.LOST and t.kind(place.type) == Kind.OBJECT
    return place if is_lost or place.form == Form.ELEMENT else None


@call(*COUNT_CALLS)
def count_call(t: Translation, node: c_ast.FuncCall, given: list[c_ast.Node]) -> Value:
    """Py_INCREF, Py_DECREF and their relatives."""
    name = COUNT_CALLS[node.name.name]
    lost = lost_element(t, given[0])
    if lost is not None:
        t.assume("count of an element", name, node)
        return done_by(lost.effects)
    value = t.value(given[0])
    if value.is_null and "X" in name:
        return done()
    code = as_object(t, value, node)
    return done(Expression(Call(name, (code,), place=t.place(node)), place=t.place(node)))


@call("Py_NewRef", "Py_XNewRef", "_Py_NewRef", "_Py_XNewRef")
def new_reference(t: Translation, node: c_ast.FuncCall, given: list[c_ast.Node]) -> Value:
    """Py_NewRef and Py_XNewRef."""
    value = t.value(given[0])
    kind = value.type if value.kind == Kind.OBJECT else OBJECT
    code = Call(node.name.name.lstrip("_"), (as_object(t, value, node),), place=t.place(node))
    return kept(Kind.OBJECT, kind if t.kinds.tag(kind) is None else OBJECT, code)


@call("Py_CLEAR")
def clear(t: Translation, node: c_ast.FuncCall, given: list[c_ast.Node]) -> Value:
    """Py_CLEAR: the place's reference is given up, and it holds NULL."""
    place = target(t, given[0])
    if place.form != Form.KEPT or t.kind(place.type) != Kind.OBJECT:
        t.assume("count of an element", "Py_CLEAR", node)
        return done_by(place.effects)
    before, code = evaluated_once(t, place)
    release = Call("Py_XDECREF", (code,), place=t.place(node))
    return in_block(before, Expression(release, place=t.place(node)), Expression(Assign(code, "=", NULL)))


def evaluated_once(t: Translation, place: Target) -> tuple[list[Stmt], Expr]:
    """A place that is named twice: a call in it is made once, before."""
    code = place.code
    assert code is not None
    if not isinstance(code, Arrow) or not any(isinstance(part, Call) for part in walk(code)):
        return [], code
    words = code.base.words if isinstance(code.base, CastTo) else "PyObject *"
    variable = Variable(t.printed_name("base"), OBJECT, Kind.OBJECT)
    t.variables[variable.name] = variable
    base: Expr = Name(variable.name)
    return [Declare(words, variable.name, code.base)], Arrow(base, code.member, place=code.place)


def in_block(before: list[Stmt], *statements: Stmt) -> Value:
    """Statements, after the declarations that they need."""
    return done(Block((*before, *statements))) if before else done(*statements)


@call("Py_SETREF", "Py_XSETREF")
def set_reference(t: Translation, node: c_ast.FuncCall, given: list[c_ast.Node]) -> Value:
    """Py_SETREF: the place gets a value, and what it held is given up."""
    place, value = target(t, given[0]), t.value(given[1])
    before: list[Stmt] = []
    if place.form == Form.KEPT:
        before, place.code = evaluated_once(t, place)
    stored = store(t, place, value, node)
    statements = [Expression(expr, place=t.place(node)) for expr, _ in effects_of(t, stored)]
    if place.form != Form.KEPT or t.kind(place.type) != Kind.OBJECT:
        return done(*statements)
    release = Call("Py_XDECREF" if "X" in node.name.name else "Py_DECREF", (place.code,), place=t.place(node))
    return in_block(before, Expression(release, place=t.place(node)), *statements)
