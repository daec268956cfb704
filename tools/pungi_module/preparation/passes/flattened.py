"""Labels within a branch to which something outside of it jumps, as in `if (0) { error: .. }`.

Pungi reads a `goto` to a label of the same block or one around it (rule N6), so such a branch is written with jumps, in
the block around it. The locals of a function have names of their own each, so that a block may go.
"""

from __future__ import annotations

from collections.abc import Iterator
from dataclasses import replace
from itertools import count

from ..text.rewrite import bottom_up
from ..text.subset import Block, Expr, If, Jump, Label, Stmt, Unary, parts


def flattened(body: Block) -> Block:
    """The body without branches into which something jumps, as far as these stand in no loop or switch of their own."""
    hidden, numbers = set(hidden_labels(body, frozenset())), count(1)
    return bottom_up(body, lambda node: opened(node, hidden, numbers)) if hidden else body


def hidden_labels(node: Stmt, visible: frozenset[str]) -> Iterator[str]:
    """The labels to which something jumps that stands neither in their block nor in one within it."""
    if isinstance(node, Jump) and node.word.startswith("goto ") and node.word[5:] not in visible:
        yield node.word[5:]
    if isinstance(node, Block):
        visible |= {item.name for item in node.items if isinstance(item, Label)}
    for part in parts(node):
        if isinstance(part, Stmt):
            yield from hidden_labels(part, visible)


def opened(node: Expr | Stmt, hidden: set[str], numbers: Iterator[int]) -> Expr | Stmt:
    """A block in which the blocks and branches that directly hold such a label are open, so that it holds the label."""
    if not isinstance(node, Block):
        return node
    items: list[Stmt] = []
    for item in node.items:
        if isinstance(item, Block) and label_in(item, hidden):
            items += item.items
        elif isinstance(item, If) and (label := label_in(item.then, hidden) or label_in(item.otherwise, hidden)):
            items += with_jumps(item, f"{label}_{next(numbers)}")
        else:
            items.append(item)
    return replace(node, items=tuple(items))


def label_in(node: Stmt | None, hidden: set[str]) -> str | None:
    """Such a label that stands directly in a block."""
    items = node.items if isinstance(node, Block) else ()
    return next((item.name for item in items if isinstance(item, Label) and item.name in hidden), None)


def with_jumps(node: If, word: str) -> list[Stmt]:
    """A branch as jumps over its parts."""
    end, other = "after_" + word, "else_" + word
    then = list(node.then.items) if isinstance(node.then, Block) else [node.then]
    if node.otherwise is None:
        return [skip(node, end), *then, Label(end)]
    otherwise = list(node.otherwise.items) if isinstance(node.otherwise, Block) else [node.otherwise]
    return [skip(node, other), *then, Jump("goto " + end), Label(other), *otherwise, Label(end)]


def skip(node: If, label: str) -> Stmt:
    """The jump of a branch whose condition does not hold."""
    return If(Unary("!", node.condition), Block((Jump("goto " + label, place=node.place),)), place=node.place)
