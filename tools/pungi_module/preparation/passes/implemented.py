"""`result = Py_NotImplemented; .. result = call(..); .. if (result == Py_NotImplemented) ..`: where the variable holds
what a call returned, it holds another object."""

from __future__ import annotations

from collections.abc import Mapping

from ...model import Place
from ..text.rewrite import bottom_up
from ..text.subset import STOP, Assign, Binary, Block, Call, CastTo, Declare, Expr, Expression, If, Name, Stmt, walk

NOT_IMPLEMENTED = Name("Py_NotImplemented")


def with_other_results(body: Block, named_by: Mapping[str, frozenset[str]]) -> tuple[Block, dict[Place | None, str]]:
    """The body in which a run stops where such a call returns Py_NotImplemented, and the places and variables. A
    callee that names it may return it; `named_by` has what calls that stay calls name."""
    variables = asked_about(body)
    found: dict[Place | None, str] = {}

    def change(node: Expr | Stmt) -> Expr | Stmt:
        name = result_of_call(node, named_by)
        if name is None or name not in variables:
            return node
        found[node.place] = name
        is_other = If(Binary("==", Name(name), NOT_IMPLEMENTED), Block((STOP,)))
        return Block((node, is_other), place=node.place)

    return bottom_up(body, change) if variables else body, found


def asked_about(body: Block) -> set[str]:
    """The variables that are set to Py_NotImplemented, and that are compared with it."""
    held, compared = set(), set()
    for node in walk(body):
        if isinstance(node, Declare) and node.value == NOT_IMPLEMENTED:
            held.add(node.name)
        elif isinstance(node, Assign) and node.value == NOT_IMPLEMENTED and isinstance(node.target, Name):
            held.add(node.target.text)
        elif isinstance(node, Binary) and node.op in ("==", "!=") and NOT_IMPLEMENTED in (node.left, node.right):
            compared |= {side.text for side in (node.left, node.right) if isinstance(side, Name)}
    return held & compared


def result_of_call(node: Expr | Stmt, named_by: Mapping[str, frozenset[str]]) -> str | None:
    """The variable to which a statement assigns what a call returns, unless the callee names Py_NotImplemented."""
    if not isinstance(node, Expression) or not isinstance(node.expr, Assign) or node.expr.op != "=":
        return None
    value = node.expr.value
    while isinstance(value, CastTo):
        value = value.operand
    target = node.expr.target
    if not isinstance(value, Call) or NOT_IMPLEMENTED.text in named_by.get(value.name, ()):
        return None
    return target.text if isinstance(target, Name) else None
