"""Local variables of type Py_buffer: each is printed as the reference that it holds."""

from __future__ import annotations

from pycparser import c_ast

from ..reading.syntax import addressed_name, arguments, below, stripped
from ..text.subset import NULL, Assign, Call, Expression, Name
from ..translation.handlers import call
from ..translation.names import effect_list
from ..translation.translation import Translation
from ..translation.values import Form, Target, Value, Variable, done, done_by
from ..types.c_types import CType, Struct

#: The member of Py_buffer that holds a reference.
OWNER = "obj"


def is_buffer(t: Translation, kind: CType) -> bool:
    """The type is Py_buffer."""
    return isinstance(kind, Struct) and kind == t.types.of_words(["Py_buffer"])


def is_followed(t: Translation, name: str) -> bool:
    """All uses of the local in the function are its members, and its address as an argument of a call."""
    followed: set[int] = set()
    for node in below(t.node.body):
        if isinstance(node, c_ast.StructRef) and node.type == ".":
            followed.add(id(node.name))
        elif isinstance(node, c_ast.FuncCall):
            followed |= {id(stripped(item).expr) for item in arguments(node) if addressed_name(item) == name}
    return all(id(node) in followed for node in below(t.node.body) if isinstance(node, c_ast.ID) and node.name == name)


def is_only_read(t: Translation, function: str, at: int) -> bool:
    """The function of the module gives its parameter of this number, from 0, to no other call."""
    node = t.module.functions.get(function)
    parameters = node.decl.type.args.params if node is not None and node.decl.type.args else []
    name = getattr(parameters[at], "name", None) if at < len(parameters) else None
    return name is not None and not any(
        isinstance(stripped(item), c_ast.ID) and stripped(item).name == name
        for call in below(node.body) if isinstance(call, c_ast.FuncCall) for item in arguments(call))


def owner_of(t: Translation, argument: c_ast.Node) -> Target | None:
    """The reference of the local Py_buffer whose address an argument is."""
    variable = t.lookup(addressed_name(argument) or "")
    return owner(t, variable) if variable is not None else None


def owner(t: Translation, variable: Variable) -> Target | None:
    """The reference of a local Py_buffer that is printed."""
    part = (variable.members or {}).get(OWNER) if is_buffer(t, variable.type) else None
    return Target(Form.KEPT, part[1], Name(part[0])) if part is not None else None


@call("PyBuffer_Release")
def release(t: Translation, node: c_ast.FuncCall, given: list[c_ast.Node]) -> Value:
    """PyBuffer_Release: the reference is given up, and NULL is there."""
    place = owner_of(t, given[0])
    if place is None or place.code is None:
        return done_by(effect_list(t, given))
    given_up = Call("Py_XDECREF", (place.code,), place=t.place(node))
    return done(Expression(given_up, place=t.place(node)), Expression(Assign(place.code, "=", NULL)))
