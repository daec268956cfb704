"""Calls: by what is called."""

from __future__ import annotations

from pycparser import c_ast

from ..reading.syntax import arguments, stripped
from ..text.subset import STOP
from ..translation.conversions import effects_of
from ..translation.handlers import CALLS, expression
from ..translation.names import effect_list
from ..translation.translation import Translation
from ..translation.values import Value, done, done_by
from ..types.c_types import INT, OBJECT, OTHER, CType, FunctionType, decayed, pointee
from ..types.kinds import Kind
from . import tables
from .default_calls import Signature, default_call
from .freed import MEMORY_ENDS, freed, freeing_names
from .outputs import output_target
from .own_calls import own_call
from .row_calls import RESULT_TYPES, known_row, row_call
from .row_names import freeing_calls, stopping_calls
from .tables import WhenSet
from .wide_calls import outputs_left, wide_call, wide_rows

@expression(c_ast.FuncCall)
def call_value(t: Translation, node: c_ast.FuncCall) -> Value:
    """A call."""
    function = node.name
    while isinstance(function, c_ast.UnaryOp) and function.op == "*":
        function = function.expr
    if isinstance(function, c_ast.ID) and t.lookup(function.name) is None and function.name not in t.module.globals:
        return named_call(t, node, function.name, arguments(node))
    return pointer_call(t, node, function, arguments(node))


def named_call(t: Translation, node: c_ast.FuncCall, name: str, given: list[c_ast.Node]) -> Value:
    """A call of a function by its name."""
    if name in t.module.functions or name in t.module.unparsed:
        return own_call(t, node, name, given)
    if name in CALLS:
        return CALLS[name](t, node, given)
    if name in stopping_calls():
        return done(*(item for item in done_by(effect_list(t, given)).statements), STOP)
    if name in tables.NOTHING:
        return done_by(effect_list(t, given))
    if name in freeing_calls() | MEMORY_ENDS and given:
        return free_call(t, node, name, given)
    if name in t.state.options.conventions:
        return declared_call(t, node, name, given)
    row = known_row(t, name, len(given))
    found = row_call(t, node, name, row, given) if row is not None else None
    if found is not None:
        return found
    wide = wide_rows().get(name) if name not in t.state.api else None
    return unknown_call(t, node, name, given) if wide is None else wide_call(t, node, name, wide, given)


def free_call(t: Translation, node: c_ast.FuncCall, name: str, given: list[c_ast.Node]) -> Value:
    """PyObject_Free and the like: of an object, or of memory."""
    inner = stripped(given[0])
    value = t.value(inner) if isinstance(inner, c_ast.ID) else None
    if value is not None and value.kind == Kind.OBJECT:
        if t.module.is_memory_struct(value.type) or name in freeing_calls() and t.kinds.is_python_object(value.type):
            return freed(t, node, given[0])
    return done_by(effect_list(t, given))


def declared_call(t: Translation, node: c_ast.FuncCall, name: str, given: list[c_ast.Node]) -> Value:
    """A call of a function that the author describes."""
    said = t.state.options.conventions[name]
    t.assume("declared", name, node)
    result, ownership = result_of(t, name), "borrowed" if said.returns_borrowed else "new"
    when_set = WhenSet.STATUS if said.outputs and result == INT else None
    return default_call(t, node, Signature(name, result, ownership, said.takes, when_set, outputs_left(said.outputs),
                                           function=name), given)


def result_of(t: Translation, name: str) -> CType:
    """What a function that is only declared, or was a macro, returns."""
    signature = t.module.signature(name)
    if signature is not None:
        return signature.result
    row = t.state.api.get(name)
    if row is not None:
        return RESULT_TYPES[row.result]
    if name.endswith(("_Check", "_CheckExact", "_IS_TYPE")):
        return INT
    return OBJECT if name in tables.BORROWED else OTHER


def unknown_call(t: Translation, node: c_ast.FuncCall, name: str, given: list[c_ast.Node]) -> Value:
    """A call of a function of which only its prototype is known, or whose row is about other arguments."""
    result = result_of(t, name)
    row = t.state.api.get(name)
    borrowed = name in tables.BORROWED or t.kind(result) == Kind.OBJECT and t.kinds.is_uncounted(result)
    if row is not None:
        borrowed = borrowed or row.result.startswith("borrowed")
    elif name not in tables.BORROWED:
        t.assume("default row", name, node)
    has_outputs = any(output_target(t, argument) is not None for argument in given)
    status = has_outputs and result == INT and name.startswith(("Py", "_Py"))
    word = "truth" if result == INT and name.endswith(("_Check", "_CheckExact")) else None
    signature = Signature(name, result, "borrowed" if borrowed else "new", row.takes if row is not None else (),
                          WhenSet.STATUS if status else None, result_word=word, function=name)
    return default_call(t, node, signature, given)


def pointer_call(t: Translation, node: c_ast.FuncCall, function: c_ast.Node, given: list[c_ast.Node]) -> Value:
    """A call through a pointer."""
    word = function.field.name if isinstance(function, c_ast.StructRef) else getattr(function, "name", "pointer")
    word = word if isinstance(word, str) else "pointer"
    beside = t.state.slots.beside.get(t.name, {}).get(word)
    frees = word in tables.FREEING_SLOTS or isinstance(function, c_ast.ID) and word in freeing_names(t.node.body)
    if frees and given and beside in (None, t.name):
        return freed(t, node, given[0])
    if word == "tp_alloc":
        return default_call(t, node, Signature("pungi_tp_alloc", OBJECT), given)
    if beside is not None and beside != t.name:
        return own_call(t, node, beside, given)
    value = t.value(function)
    kind = decayed(value.type)
    while not isinstance(kind, FunctionType) and pointee(kind) != OTHER:
        kind = pointee(kind)
    result = kind.result if isinstance(kind, FunctionType) else OTHER
    t.assume("call through a pointer", word, node)
    before = effects_of(t, value)
    found = default_call(t, node, Signature("pungi_call_" + word, result), given)
    if before:
        from ..translation.conversions import ordered
        return ordered(t, before, found)
    return found
