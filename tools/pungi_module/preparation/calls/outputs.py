"""Outputs of calls: arguments that point to what the call sets."""

from __future__ import annotations

from dataclasses import dataclass

from pycparser import c_ast

from ..reading.syntax import stripped
from ..text.rows_used import Effect
from ..text.subset import NULL, Assign, Conditional, Name
from ..translation.targets import target
from ..translation.translation import Translation
from ..translation.values import Form, Target
from ..types.c_types import Array, Struct
from ..types.kinds import Kind
from .buffers import is_only_read, owner_of
from .tables import Output


@dataclass
class OutputPlace:
    """A place that a call sets, and what it leaves there."""

    place: Target
    output: Output


def has_constant_target(t: Translation, function: str, at: int) -> bool:
    """The parameter points to something `const`: it is no output."""
    prototype = t.module.prototypes.get(function)
    parameters = prototype.args.params if prototype is not None and prototype.args else []
    if at >= len(parameters) or not isinstance(parameters[at], (c_ast.Decl, c_ast.Typename)):
        return False
    pointer = parameters[at].type
    return isinstance(pointer, c_ast.PtrDecl) and "const" in (getattr(pointer.type, "quals", None) or [])


def output_target(t: Translation, argument: c_ast.Node) -> Target | None:
    """The place that an argument `&place` points to, where it is kept or its effects count."""
    argument = stripped(argument)
    if not isinstance(argument, c_ast.UnaryOp) or argument.op != "&":
        return None
    inner = argument.expr
    if isinstance(inner, c_ast.UnaryOp):
        return None
    buffer = owner_of(t, argument)
    if buffer is not None:
        return buffer
    if isinstance(inner, c_ast.ID) and t.lookup(inner.name) is None:
        known = t.module.globals.get(inner.name)
        if known is None or isinstance(known.type, Struct):
            return None
    return target(t, inner)


def output_places(t: Translation, node: c_ast.Node, function: str, at: int, argument: c_ast.Node,
                  said: Output | None) -> tuple[list[OutputPlace], list[Effect]] | None:
    """What a call sets through an argument, and what happens where the argument is evaluated; None where it is no
    output."""
    if has_constant_target(t, function, at):
        return None
    place = output_target(t, argument)
    if place is None:
        return None
    if said is None and owner_of(t, argument) is not None:
        if not is_only_read(t, function.removeprefix("pungi_call_"), at):
            t.assume("buffer passed on", "%s, argument %d" % (function, at + 1), node)
        return [], []
    if place.form == Form.KEPT:
        if said is None and t.kind(place.type) == Kind.OBJECT:
            t.assume("output guessed", "%s, argument %d" % (function, at + 1), node)
        return [OutputPlace(place, said or Output.ANY)], []
    if place.form in (Form.LOST, Form.ELEMENT):
        return struct_parts(t, node, argument), place.effects
    return None


def struct_parts(t: Translation, node: c_ast.Node, argument: c_ast.Node) -> list[OutputPlace]:
    """The printed parts of a local struct whose address a call gets."""
    inner = stripped(argument).expr
    variable = t.lookup(inner.name) if isinstance(inner, c_ast.ID) else None
    if variable is None or not variable.members or isinstance(variable.type, Array):
        return []
    t.assume("struct passed by address", inner.name, node)
    return [OutputPlace(Target(Form.KEPT, kind, Name(name)), Output.ANY) for name, kind in variable.members.values()]


def set_output(t: Translation, found: OutputPlace) -> Effect | None:
    """The assignment of what a call leaves in an output."""
    if found.output == Output.KEPT:
        return None
    kind = t.kind(found.place.type)
    if kind == Kind.OBJECT and found.output == Output.UPDATED:
        taken = t.generic("null", [(t.state.rows.take(found.place.code), Kind.OBJECT)])
        store = Assign(found.place.code, "=", t.generic("new"), found.place.slot)
        return Conditional(t.generic("choice"), found.place.code, Conditional(taken, NULL, store)), kind
    if kind == Kind.OBJECT:
        owned = found.output in (Output.NEW, Output.REPLACED)
        value = t.generic("new" if owned else "sure" if found.output == Output.SURE else "borrowed")
    elif kind == Kind.TEXT:
        value = t.generic("text")
    else:
        value = t.generic(kind.number_word)
    slot = found.place.slot if kind == Kind.OBJECT else None
    return Assign(found.place.code, "=", value, slot), kind


def clear_output(t: Translation, found: OutputPlace) -> Effect | None:
    """The assignment of NULL to an output that is an object."""
    if t.kind(found.place.type) != Kind.OBJECT:
        return None
    return Assign(found.place.code, "=", NULL), Kind.OBJECT
