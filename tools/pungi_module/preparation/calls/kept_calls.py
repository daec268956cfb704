"""Calls of the module's own functions that stay calls: the program judges a function together with what it calls."""

from __future__ import annotations

from pycparser import c_ast

from ..reading.syntax import stripped
from ..text.printed_function import PrintedFunction
from ..text.rows_used import Effect
from ..text.subset import EMPTY_TEXT, Assign, Call, EndOfObject, Expr, Expression, Name, Step, Stmt, walk
from ..translation.conversions import effects_of, fit, ordered
from ..translation.functions import parameter_nodes
from ..translation.translation import Translation
from ..translation.values import Form, Value, done, kept, opaque
from ..types.c_types import VOID, Array, CType, Number, Struct, decayed
from ..types.kinds import Kind
from .outputs import output_places, output_target, set_output

#: So many functions deep the program goes into calls, the first one among them.
DEPTH_LIMIT = 4

#: Assumptions about what stands in memory where a function begins. A caller may have stored there before.
OF_ENTRY = frozenset(["init runs once", "filled once", "output parameter"])


def keeps_call(t: Translation, name: str, given: list[c_ast.Node]) -> bool:
    """A call of a function of the module stays one, with these arguments."""
    finished = t.state.finished
    callee = finished.functions.get(name)
    if callee is None or t.whole_name in t.state.without_calls or finished.depths[name] >= DEPTH_LIMIT:
        return False
    if (t.whole_name, name) in t.state.options.calls_as_rows:
        return False
    if name in t.state.options.conventions or t.state.options.loosened & {name, t.whole_name}:
        return False
    signature = t.module.signature(name)
    if signature is None or signature.variadic or t.kind(signature.result) == Kind.OPAQUE:
        return False
    if t.kinds.is_uncounted(signature.result) or is_quiet(t, callee):
        return False
    if any(assumption.name in OF_ENTRY for assumption in callee.assumptions):
        return False
    kinds = parameter_kinds(t, name)
    return len(kinds) == len(given) and all(is_seen(t, kind, item) for kind, item in zip(kinds, given))


def parameter_kinds(t: Translation, name: str) -> list[CType]:
    """The types of a function's parameters."""
    kinds = [decayed(t.types.of(item.type)) for item in parameter_nodes(t.module.functions[name])]
    return [kind for kind in kinds if kind != VOID]


def is_seen(t: Translation, kind: CType, argument: c_ast.Node) -> bool:
    """A callee sees the object that an argument for a parameter of this type is: no local for objects is changed
    through it."""
    inner = stripped(argument)
    if isinstance(inner, c_ast.ID):
        variable = t.lookup(inner.name)
        return variable is None or not variable.members and not isinstance(variable.type, Array)
    if not isinstance(inner, c_ast.UnaryOp) or inner.op != "&":
        return True
    place = inner.expr
    if isinstance(place, c_ast.ID) and t.lookup(place.name) is None:
        known = t.module.globals.get(place.name)
        return known is not None and known.type == Struct("_typeobject")
    if t.kind(kind) == Kind.OBJECT or isinstance(place, c_ast.ID) and (t.lookup(place.name).members or {}):
        return False
    target = output_target(t, argument)
    return target is None or target.form != Form.KEPT or t.kind(target.type) != Kind.OBJECT


def is_quiet(t: Translation, function: PrintedFunction) -> bool:
    """Nothing happens to objects in a function, and nothing is stored where others see it: a row that returns any value
    of its type does whatever it may do."""
    if function.name not in t.state.quiet:
        t.state.quiet[function.name] = finds_quiet(t, function)
    return t.state.quiet[function.name]


def finds_quiet(t: Translation, function: PrintedFunction) -> bool:
    """The same, looked for."""
    result = t.module.signature(function.name).result
    if function.taken or t.kind(result) == Kind.OBJECT and not t.kinds.is_uncounted(result):
        return False
    return all(is_quiet_node(function, node) for node in walk(function.body))


def is_quiet_node(function: PrintedFunction, node: Expr | Stmt) -> bool:
    """Nothing happens in a node itself."""
    if isinstance(node, Call):
        return node.is_harmless
    if isinstance(node, (Assign, Step)):
        variable = function.variables.get(node.target.text) if isinstance(node.target, Name) else None
        return variable is not None and not variable.is_static
    return not isinstance(node, EndOfObject)


def kept_call(t: Translation, node: c_ast.FuncCall, name: str, given: list[c_ast.Node]) -> Value:
    """The call. What it leaves in numbers and texts whose addresses it gets is any value."""
    before: list[Effect] = []
    printed: list[Expr] = []
    for at, (kind, argument) in enumerate(zip(parameter_kinds(t, name), given)):
        found = output_places(t, node, "pungi_call_" + name, at, argument, None)
        if found is not None:
            before += found[1] + [store for store in (set_output(t, place) for place in found[0]) if store is not None]
            printed += [EMPTY_TEXT] if t.kind(kind).is_kept else []
            continue
        value = t.value(argument)
        if t.kind(kind).is_kept:
            printed.append(fit(t, value, kind, node))
        else:
            before += effects_of(t, value)
    if name not in t.kept:
        t.kept.append(name)
    call, result = Call(name, tuple(printed), place=t.place(node)), t.module.signature(name).result
    if t.kind(result) == Kind.VOID:
        return done(*(Expression(expr, place=expr.place) for expr, _ in before), Expression(call, place=call.place))
    if isinstance(result, Number) and not result.is_natural:
        return ordered(t, before, opaque(result, [(call, Kind.LONG)]))
    return ordered(t, before, kept(t.kind(result), result, call))
