"""`Py_DECREF(node->key); return ..;` of a struct without a count: the field is not named again, and holds nothing."""

from __future__ import annotations

from collections import Counter
from collections.abc import Callable, Mapping
from dataclasses import replace

from ...model import Place
from ..text.rewrite import bottom_up
from ..text.subset import NULL, Arrow, Assign, Block, Call, Expression, Jump, Return, Stmt, walk
from ..translation.targets import slot_of

GIVING = ("Py_DECREF", "Py_XDECREF")
COUNTING = ("Py_INCREF", "Py_XINCREF", "Py_NewRef", "Py_XNewRef")


def with_emptied(
    body: Block, is_uncounted: Callable[[str], bool], named_by: Mapping[str, frozenset[str]]
) -> tuple[Block, dict[Place | None, str]]:
    """The body in which such fields of variables, of which the second argument tells whether they point to a struct
    without a count, become NULL; the places and slots. `named_by` has the fields that calls which stay calls name."""
    counted = {slot_of(node.arguments[0]) for node in walk(body) if isinstance(node, Call) and node.name in COUNTING}
    found: dict[Place | None, str] = {}

    named = Counter(slot_of(node) for node in walk(body) if isinstance(node, Arrow))
    called = set().union(*(named_by.get(node.name, ()) for node in walk(body) if isinstance(node, Call)))

    def emptied(block: Block, is_last: bool) -> Block:
        items: list[Stmt] = []
        for at, item in enumerate(block.items):
            items.append(item)
            place = given_up(item)
            slot = slot_of(place) if place is not None else None
            if slot is None or slot in counted or not is_uncounted(slot.partition("->")[0]):
                continue
            if not is_last and (named[slot] > 1 or slot.partition("->")[2] in called):
                continue
            if not any(mentions(later, slot, named_by) for later in block.items[at + 1 :]):
                found[item.place] = slot
                items.append(Expression(Assign(place, "=", NULL)))
        return replace(block, items=tuple(items)) if len(items) > len(block.items) else block

    body = bottom_up(body, lambda node: emptied(node, ends_there(node)) if isinstance(node, Block) else node)
    return body if ends_there(body) else emptied(body, True), found


def ends_there(block: Block) -> bool:
    """A run leaves the function at the end of the block."""
    return bool(block.items) and (isinstance(block.items[-1], Return) or isinstance(block.items[-1], Jump)
                                  and block.items[-1].word.startswith("goto"))


def given_up(item: Stmt) -> Arrow | None:
    """The field whose reference a statement gives up."""
    call = item.expr if isinstance(item, Expression) else None
    place = call.arguments[0] if isinstance(call, Call) and call.name in GIVING else None
    return place if isinstance(place, Arrow) else None


def mentions(item: Stmt, slot: str, named_by: Mapping[str, frozenset[str]]) -> bool:
    """A statement names a field of a variable, or a function that it calls names that field."""
    field = slot.partition("->")[2]
    return any(isinstance(node, Arrow) and slot_of(node) == slot
               or isinstance(node, Call) and field in named_by.get(node.name, ()) for node in walk(item))
