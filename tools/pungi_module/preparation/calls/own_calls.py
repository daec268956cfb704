"""Calls of the module's own functions, each by a row of its own."""

from __future__ import annotations

from pycparser import c_ast

from ..reading.syntax import below
from ..translation.directions import Direction, direction
from ..translation.names import is_null_constant
from ..translation.translation import Translation
from ..translation.values import Value
from ..types.c_types import INT, Pointer, decayed
from ..types.kinds import Kind
from .default_calls import Signature, default_call
from .kept_calls import is_quiet, keeps_call, kept_call
from .tables import Output, WhenSet
from .wide_calls import outputs_left


def returned_constants(t: Translation, name: str) -> set[int | None]:
    """The constants that a function returns; None stands for any other value."""
    node = t.module.functions.get(name)
    if node is None:
        return {None}
    return {t.constant(item.expr) if item.expr is not None else None
            for item in below(node.body) if isinstance(item, c_ast.Return)}


def outputs_of(t: Translation, name: str) -> dict[int, Output]:
    """What a function of the module does with the places that its parameters point to."""
    node = t.module.functions.get(name)
    declared = node.decl.type.args.params if node is not None and node.decl.type.args else []
    found = {}
    for at, item in enumerate(declared):
        word = getattr(item, "name", None)
        if word and isinstance(item, c_ast.Decl) and t.kinds.is_objects(decayed(t.types.of(item.type))):
            found[at] = OUTPUT_OF[direction(node, word)]
    return found


OUTPUT_OF = {Direction.IN: Output.KEPT, Direction.OUT: Output.NEW, Direction.BOTH: Output.UPDATED}


def returns_null(t: Translation, name: str) -> bool:
    """A function of the module returns NULL, and nothing else."""
    node = t.module.functions.get(name)
    found = [item.expr for item in below(node.body) if isinstance(item, c_ast.Return)] if node is not None else []
    return bool(found) and all(expr is not None and is_null_constant(t, expr) for expr in found)


def is_known_quiet(t: Translation, name: str) -> bool:
    """A row does whatever the function does (kept_calls.py)."""
    callee = t.state.finished.functions.get(name)
    return callee is not None and is_quiet(t, callee)


def assumption(t: Translation, name: str) -> str:
    """What a call of a function by a row rests on."""
    from .in_place import changes_memory
    changes = changes_memory(t, t.module.functions[name])
    return "callee with effects as a row" if changes else "callee as a row"


def has_outputs(t: Translation, given: list[c_ast.Node]) -> bool:
    """An argument is the address of a place."""
    return any(isinstance(item, c_ast.UnaryOp) and item.op == "&" for item in given)


def own_call(t: Translation, node: c_ast.FuncCall, name: str, given: list[c_ast.Node]) -> Value:
    """A call of a function of the module."""
    if name not in t.calls:
        t.calls.append(name)
    if keeps_call(t, name, given):
        return kept_call(t, node, name, given)
    signature = t.module.signature(name)
    result = signature.result if signature is not None else INT
    if not t.state.stands_in_text(name):
        t.assume("default row for a function of the file", name, node)
    elif is_known_quiet(t, name):
        t.through.append(name)
    else:
        t.assume(assumption(t, name), name, node)
    said = t.state.options.conventions.get(name)
    declared = outputs_left(said.outputs) if said is not None else {}
    outputs = {**outputs_of(t, name), **declared}
    constants = returned_constants(t, name)
    when_set = None
    if result == INT and -1 in constants:
        when_set = WhenSet.STATUS
    elif result == INT and constants >= {0, 1}:
        when_set = WhenSet.CONVERTER
    if outputs.keys() - declared.keys() and has_outputs(t, given):
        t.assume("output of a function of the file", name, node)
    word = None
    if result == INT and constants <= {0, -1}:
        word = "status"
    elif result == INT and constants <= {0, 1, -1}:
        word = "truth"
    if said is not None:
        t.assume("declared", name, node)
    if t.kind(result) == Kind.OBJECT and constants == {0}:
        word = "null"
    borrowed = said is not None and said.returns_borrowed or (
        t.kind(result) == Kind.OBJECT and (t.kinds.is_uncounted(result) or not isinstance(result, Pointer)))
    ownership = "null" if returns_null(t, name) else "borrowed" if borrowed else "new"
    takes = said.takes if said is not None else ()
    called = Signature("pungi_call_" + name, result, ownership, takes, when_set, outputs, word, name)
    return default_call(t, node, called, given)
