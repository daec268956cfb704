"""Trees of the printed text with some of their parts replaced."""

from __future__ import annotations

from dataclasses import replace
from typing import Callable, TypeVar

from .subset import Block, Expr, Stmt, part_words

Node = TypeVar("Node", Expr, Stmt)
Change = Callable[[Expr | Stmt], Expr | Stmt | None]


def with_parts(node: Node, change: Change) -> Node:
    """The node with each direct part changed. A statement that becomes None is an empty block, or goes where it stands
    in one."""
    changed = {}
    for word in part_words(type(node)):
        value = getattr(node, word)
        if type(value) is tuple:
            parts = tuple(part for part in map(change, value) if part is not None)
            if len(parts) != len(value) or any(new is not old for new, old in zip(parts, value)):
                changed[word] = parts
        elif value is not None:
            new = change(value)
            new = Block() if new is None and isinstance(value, Stmt) else new
            if new is not value:
                changed[word] = new
    return replace(node, **changed) if changed else node


def bottom_up(node: Node, change: Change) -> Node:
    """The node in which each part, and then the node itself, is changed."""
    def inner(part: Expr | Stmt) -> Expr | Stmt | None:
        return bottom_up(part, change)
    return change(with_parts(node, inner))
