"""Questions about pycparser's trees."""

from __future__ import annotations

from collections.abc import Sequence
from weakref import WeakKeyDictionary

from pycparser import c_ast

#: What stands below the blocks that were asked about, since the bodies of functions are asked about often.
_BELOW: WeakKeyDictionary[c_ast.Node, Sequence[c_ast.Node]] = WeakKeyDictionary()


def below(node: c_ast.Node | None) -> Sequence[c_ast.Node]:
    """The node and all below it."""
    if not isinstance(node, c_ast.Compound):
        return all_below(node) if node is not None else ()
    if node not in _BELOW:
        _BELOW[node] = all_below(node)[1:]
    return (node, *_BELOW[node])


def all_below(node: c_ast.Node) -> list[c_ast.Node]:
    """The node and all below it, looked for."""
    found, waiting = [], [node]
    while waiting:
        node = waiting.pop()
        found.append(node)
        waiting.extend(reversed(list(node)))
    return found


def stripped(node: c_ast.Node) -> c_ast.Node:
    """The expression without the casts around it."""
    while isinstance(node, c_ast.Cast):
        node = node.expr
    return node


def place_named(node: c_ast.Node) -> c_ast.Node:
    """The place that an expression names: `x` for `*&x`, as macros make it."""
    while isinstance(node, c_ast.UnaryOp) and node.op == "*":
        if not isinstance(node.expr, c_ast.UnaryOp) or node.expr.op != "&":
            break
        node = node.expr.expr
    return node


def arguments(call: c_ast.FuncCall) -> list[c_ast.Node]:
    """The arguments of a call."""
    return list(call.args.exprs) if call.args else []


def called_name(node: c_ast.Node) -> str | None:
    """The name of the function or field that a call calls."""
    function = node.name if isinstance(node, c_ast.FuncCall) else None
    while isinstance(function, c_ast.UnaryOp) and function.op == "*":
        function = function.expr
    if isinstance(function, c_ast.ID):
        return function.name
    return function.field.name if isinstance(function, c_ast.StructRef) else None


def names_in(node: c_ast.Node | None) -> set[str]:
    """The identifiers that stand in an expression or statement."""
    return {child.name for child in below(node) if isinstance(child, c_ast.ID)}


def addressed_name(node: c_ast.Node) -> str | None:
    """`x`, where the expression is `&x` or a cast of it."""
    node = stripped(node)
    if isinstance(node, c_ast.UnaryOp) and node.op == "&" and isinstance(node.expr, c_ast.ID):
        return node.expr.name
    return None


def has_label(node: c_ast.Node | None) -> bool:
    """A label or `case` stands in the statement."""
    return any(isinstance(child, (c_ast.Label, c_ast.Case, c_ast.Default)) for child in below(node))


def leaves_loop(node: c_ast.Node) -> bool:
    """A `break` or `continue` in the statement leads out of it."""
    if isinstance(node, (c_ast.Break, c_ast.Continue)):
        return True
    if isinstance(node, (c_ast.While, c_ast.DoWhile, c_ast.For)):
        return False
    if isinstance(node, c_ast.Switch):
        return any(isinstance(child, c_ast.Continue) for child in below(node.stmt))
    return any(leaves_loop(child) for _, child in node.children())


def type_name(node: c_ast.Node | None) -> str | None:
    """The word that a declaration's type begins with: a typedef's name or a struct's tag."""
    while node is not None and not isinstance(node, (c_ast.IdentifierType, c_ast.Struct)):
        node = getattr(node, "type", None)
    if isinstance(node, c_ast.Struct):
        return node.name
    return node.names[-1] if node is not None else None


def string_value(node: c_ast.Node) -> str | None:
    """The text of a string constant, as written between its quotes."""
    node = stripped(node)
    if not isinstance(node, c_ast.Constant) or node.type != "string":
        return None
    text, inside, at = [], False, 0
    while at < len(node.value):
        character = node.value[at]
        if character == "\\" and inside:
            text.append(node.value[at:at + 2])
            at += 1
        elif character == '"':
            inside = not inside
        elif inside:
            text.append(character)
        at += 1
    return "".join(text)
