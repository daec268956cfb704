"""Calls of the module's own functions that change fields or globals: the callee's body stands in place of the call."""

from __future__ import annotations

import copy
from dataclasses import replace

from pycparser import c_ast

from ..reading.syntax import arguments, below, called_name, stripped
from ..text.subset import Assign, Block, Declare, Expression, Jump, Label, Name, Stmt
from ..translation.conversions import effects_of, fit
from ..translation.translation import Frame, Translation
from ..translation.values import Variable
from ..types.c_types import VOID, FunctionType, decayed
from ..types.kinds import Kind
from .kept_calls import keeps_call

#: How deep calls stand in place, and how large their bodies are, in nodes of pycparser's tree.
DEPTH_LIMIT = 3
SIZE_LIMIT = 300

#: Calls that change a field.
CHANGES = frozenset("Py_CLEAR Py_SETREF Py_XSETREF".split())

#: Where the first call is in these, it is evaluated before everything else.
TEMPORARY = "pungi call"


def callee_of(t: Translation, node: c_ast.Node) -> str | None:
    """The function of the module that a call calls."""
    name = called_name(node)
    if name is None:
        return None
    if isinstance(node.name, c_ast.StructRef):
        return t.state.slots.beside.get(t.name, {}).get(name)
    return name if t.lookup(name) is None else None


def changes_memory(t: Translation, node: c_ast.FuncDef) -> bool:
    """The function stores objects into fields or globals, or frees an object."""
    name = node.decl.name
    if name not in t.state.changing:
        t.state.changing[name] = finds_change(t, node)
    return t.state.changing[name]


def finds_change(t: Translation, node: c_ast.FuncDef) -> bool:
    """A statement of the function stores an object into a field or global, or frees one."""
    from .freed import frees_something
    if frees_something(node.body):
        return True
    for item in below(node.body):
        if called_name(item) in CHANGES and is_object_memory(t, arguments(item)[0]):
            return True
        if isinstance(item, c_ast.Assignment) and is_object_memory(t, item.lvalue):
            return True
    return False


def is_object_memory(t: Translation, node: c_ast.Node) -> bool:
    """A field or global for an object."""
    node = stripped(node)
    if isinstance(node, c_ast.StructRef):
        return node.field.name in t.module.object_fields()
    if isinstance(node, c_ast.ID) and node.name in t.module.globals:
        known = t.module.globals[node.name]
        return known.is_own and t.kind(known.type) == Kind.OBJECT
    return False


def stands_in_place(t: Translation, node: c_ast.Node) -> bool:
    """The callee's body may stand in place of the call."""
    name = callee_of(t, node)
    if name is None or not t.state.stands_in_text(name):
        return False
    if t.node.decl.name in t.state.without_bodies:
        return False
    if name == t.name or len(t.frames) >= DEPTH_LIMIT or any(frame.name == name for frame in t.frames):
        return False
    callee = t.module.functions[name]
    signature = t.module.signature(name)
    if signature is None or signature.variadic or callee.param_decls:
        return False
    if len(arguments(node)) != len(signature.parameters):
        return False
    if keeps_call(t, name, arguments(node)):
        return False
    for argument in arguments(node):
        inner = stripped(argument)
        if isinstance(inner, c_ast.UnaryOp) and inner.op == "&":
            return False
    if not changes_memory(t, callee) or len(below(callee.body)) > SIZE_LIMIT:
        return False
    return not any(isinstance(item, c_ast.Decl) and "static" in item.storage for item in below(callee.body))


def first_evaluated(node: c_ast.Node) -> tuple[c_ast.Node, str] | None:
    """The node, and the word of its part, whose evaluation comes first in an expression."""
    if isinstance(node, c_ast.Assignment) and isinstance(stripped(node.lvalue), c_ast.ID):
        return node, "rvalue"
    if isinstance(node, c_ast.BinaryOp):
        return node, "left"
    if isinstance(node, c_ast.UnaryOp) and node.op in ("!", "-", "+"):
        return node, "expr"
    if isinstance(node, c_ast.Cast):
        return node, "expr"
    return (node, "cond") if isinstance(node, c_ast.TernaryOp) else None


def first_call_in_place(t: Translation, node: c_ast.Node) -> tuple[list[Stmt], c_ast.Node | None]:
    """The body of the call that an expression evaluates first, and the expression that is left; as it is where that
    call has a row."""
    if isinstance(node, c_ast.FuncCall):
        if not stands_in_place(t, node):
            return [], node
        return in_place(t, node)
    found = first_evaluated(node)
    if found is None:
        return [], node
    before, rest = first_call_in_place(t, getattr(node, found[1]))
    if not before:
        return [], node
    if rest is None:
        return before, None
    node = copy.copy(node)
    setattr(node, found[1], rest)
    return before, node


def in_place(t: Translation, node: c_ast.FuncCall) -> tuple[list[Stmt], c_ast.Node | None]:
    """The callee's body, and the variable that has what it returns."""
    name = callee_of(t, node)
    assert name is not None
    callee = t.module.functions[name]
    if name not in t.calls:
        t.calls.append(name)
    signature = t.types.of(callee.decl.type)
    assert isinstance(signature, FunctionType)
    before: list[Stmt] = []
    result, left = None, None
    of_kind = t.kind(signature.result)
    if of_kind.is_kept:
        result = Variable(t.printed_name(name + "_result"), signature.result, of_kind)
        left = c_ast.ID(TEMPORARY + result.name, node.coord)
        t.declare(left.name, result)
        t.state.use_struct(signature.result)
        before.append(Declare(t.kinds.words(signature.result), result.name, place=t.place(node)))
    scope = parameters(t, node, callee, before)
    body = translated_body(t, callee, signature, Frame(name, t.new_label(name), result), scope)
    return before + body, left


def parameters(t: Translation, node: c_ast.FuncCall, callee: c_ast.FuncDef, before: list[Stmt]) -> dict[str, Variable]:
    """The callee's parameters as locals that have the arguments."""
    scope: dict[str, Variable] = {}
    declared = callee.decl.type.args.params if callee.decl.type.args else []
    named = [item for item in declared if t.types.of(item.type) != VOID]
    for item, argument in zip(named, arguments(node)):
        kind = decayed(t.types.of(item.type))
        of_kind, value = t.kind(kind), t.value(argument)
        word = getattr(item, "name", None) or "unused"
        if not of_kind.is_kept:
            before += [Expression(expr, place=t.place(node)) for expr, _ in effects_of(t, value)]
            scope[word] = Variable(word, kind, of_kind, is_printed=False)
            continue
        variable = Variable(t.printed_name(word), kind, of_kind)
        t.variables[variable.name] = variable
        t.state.use_struct(kind)
        before.append(Declare(t.kinds.words(kind), variable.name, fit(t, value, kind, node), place=t.place(node)))
        scope[word] = variable
    return scope


def translated_body(t: Translation, callee: c_ast.FuncDef, signature: FunctionType, frame: Frame,
                    scope: dict[str, Variable]) -> list[Stmt]:
    """The body, and the label to which its returns go; all of it stands on the line of the call."""
    saved = t.scopes, t.node, t.name, t.signature
    t.scopes, t.node, t.name, t.signature = [scope], callee, callee.decl.name, signature
    t.frames.append(frame)
    try:
        body = t.statement(callee.body)
    finally:
        t.frames.pop()
        t.scopes, t.node, t.name, t.signature = saved
    inner = body[0]
    assert isinstance(inner, Block)
    return [replace(inner, is_in_place=True)] + ([Label(frame.end)] if frame.is_left_early else [])


def return_in_place(t: Translation, node: c_ast.Return) -> list[Stmt]:
    """A `return` of a body that stands in place of its call."""
    frame = t.frames[-1]
    found: list[Stmt] = []
    if node.expr is not None:
        value = t.value(node.expr)
        if frame.result is not None and value.kind != Kind.VOID:
            code = fit(t, value, frame.result.type, node)
            found.append(Expression(Assign(Name(frame.result.name), "=", code), place=t.place(node)))
        else:
            found += [Expression(expr, place=t.place(node)) for expr, _ in effects_of(t, value)]
    if is_last(t.node.body, node):
        return found
    frame.is_left_early = True
    return [Block((*found, Jump("goto " + frame.end, place=t.place(node))))]


def is_last(body: c_ast.Compound, node: c_ast.Node) -> bool:
    """The statement is the last one of a body."""
    items = body.block_items or []
    return bool(items) and (items[-1] is node or isinstance(items[-1], c_ast.Return) and items[-1].coord == node.coord)
