"""Calls that were macros, or that need a word of their own."""

from __future__ import annotations

from pycparser import c_ast

from ...model import Row
from ..reading.syntax import addressed_name, stripped
from ..text.subset import NULL, Assign, Call, Conditional, Expression, Literal, Name, Unary
from ..translation.conversions import as_object, effects_of
from ..translation.declarations import zero_of
from ..translation.handlers import call
from ..translation.names import effect_list, type_of
from ..translation.translation import Translation
from ..translation.values import Value, done, kept
from ..types.c_types import INT, OBJECT, VOID, Pointer
from ..types.kinds import Kind
from .allocation import allocation
from .default_calls import Signature, default_call
from .wide_calls import wide_call, wide_rows


@call("Py_TYPE")
def type_of_object(t: Translation, node: c_ast.FuncCall, given: list[c_ast.Node]) -> Value:
    """Py_TYPE."""
    code = as_object(t, t.value(given[0]), node)
    return type_of(t, kept(Kind.OBJECT, OBJECT, code), node)


@call("Py_IS_TYPE", "PyObject_TypeCheck")
def is_type(t: Translation, node: c_ast.FuncCall, given: list[c_ast.Node]) -> Value:
    """Whether an object is of a type: either way."""
    return kept(Kind.INT, INT, Unary("!", t.generic("choice", effect_list(t, given))))


@call("Py_SET_TYPE")
def set_type(t: Translation, node: c_ast.FuncCall, given: list[c_ast.Node]) -> Value:
    """The type of an object is set: of a static type it is not counted."""
    return default_call(t, node, Signature("Py_SET_TYPE", VOID), given)


@call("pungi_visit")
def visit(t: Translation, node: c_ast.FuncCall, given: list[c_ast.Node]) -> Value:
    """What a traversal's visitor returns: either way."""
    return kept(Kind.INT, INT, Unary("!", t.generic("choice")))


@call("pungi_va_arg")
def further_argument(t: Translation, node: c_ast.FuncCall, given: list[c_ast.Node]) -> Value:
    """The next of the arguments that have no name: a pointer to any value."""
    return kept(Kind.TEXT, Pointer(VOID), Literal('""'))


@call("pungi_New")
def new_object(t: Translation, node: c_ast.FuncCall, given: list[c_ast.Node]) -> Value:
    """PyObject_New and its relatives."""
    made = allocation(t, node, t.types.of(given[0].to_type))
    return made if made is not None else default_call(t, node, Signature("pungi_new_object", OBJECT), given[1:])


@call("pungi_GC_Resize")
def resized(t: Translation, node: c_ast.FuncCall, given: list[c_ast.Node]) -> Value:
    """PyObject_GC_Resize: the object itself, or NULL."""
    value = t.value(given[0])
    t.assume("resized object", "the object itself or NULL", node)
    if isinstance(stripped(given[0]), c_ast.ID) and value.kind == Kind.OBJECT:
        return kept(Kind.OBJECT, value.type, Conditional(t.generic("choice"), NULL, value.code))
    return kept(Kind.OBJECT, value.type, t.generic("borrowed", effects_of(t, value)))


@call("PyModuleDef_Init")
def multi_phase(t: Translation, node: c_ast.FuncCall, given: list[c_ast.Node]) -> Value:
    """PyModuleDef_Init: its value is what an initialiser returns, so it is given as a new reference."""
    name = t.state.rows.name("PyModuleDef_Init", Row((), "new"))
    return kept(Kind.OBJECT, OBJECT, Call(name, (), place=t.place(node)))


@call("PyModule_Create2")
def create_module(t: Translation, node: c_ast.FuncCall, given: list[c_ast.Node]) -> Value:
    """PyModule_Create, which is a macro over this call."""
    inner = stripped(given[0])
    name = inner.expr.name if isinstance(inner, c_ast.UnaryOp) and isinstance(inner.expr, c_ast.ID) else None
    if name in t.module.globals:
        t.state.module_tables.add(name)
        return kept(Kind.OBJECT, OBJECT, Call("PyModule_Create", (Literal("&" + name),), place=t.place(node)))
    return default_call(t, node, Signature("PyModule_Create2", OBJECT), given)


@call("memset")
def fill_memory(t: Translation, node: c_ast.FuncCall, given: list[c_ast.Node]) -> Value:
    """memset: a local struct of which the parts are printed becomes zero where each byte does."""
    variable = t.lookup(addressed_name(given[0]) or "")
    if variable is None or not variable.members or t.constant(given[1]) != 0:
        return wide_call(t, node, "memset", wide_rows()["memset"], given)
    return done(*(Expression(Assign(Name(name), "=", zero_of(t.kind(kind))), place=t.place(node))
                  for name, kind in variable.members.values()))
