"""What stands for all fields of a struct, once it is known which the text names."""

from __future__ import annotations

import re
from typing import Iterator

from ..text.printed_function import named_in
from ..text.rewrite import bottom_up
from ..text.subset import (NULL, ZERO, Arrow, Assign, Binary, Block, Call, CastTo, EndOfObject, Expr, Expression, Stmt,
    UnsetFields, walk)
from ..text.text_state import TextState
from ..types.c_types import CType, Pointer, Struct
from ..types.kinds import HEAD_KEYS, HEAD_TAG, Kind

#: Fields of this name hold no reference of their own.
WEAK = re.compile(r"weak")


def base_keys(state: TextState, key: str | None) -> Iterator[str]:
    """The struct, and the structs of objects at its front."""
    while key is not None and key not in HEAD_KEYS:
        yield key
        members = state.module.types.members(key)
        first = state.module.types.of(members[0][1]) if members else None
        key = first.key if isinstance(first, Struct) and state.kinds.is_object_struct(first.key) else None


def object_fields(state: TextState, key: str, base: Expr) -> Iterator[tuple[str, str, Expr]]:
    """The object fields of a struct and its bases that the text names: struct, name, and the printed place."""
    for owner in base_keys(state, key):
        for name, kind in sorted(state.fields.get(owner, {}).items()):
            if state.kinds.of(kind) == Kind.OBJECT:
                pointer = Pointer(Struct(owner))
                words = state.kinds.words(pointer)
                cast = base if owner == key and isinstance(base, CastTo) else CastTo(words, base)
                state.use_struct(pointer)
                yield owner, name, Arrow(cast, name)


def resolved(state: TextState, body: Block) -> Block:
    """The body with its ends of objects and tests of new objects spelled out."""
    named = set(named_in(body))
    for node in walk(body):
        named |= state.finished.named.get(node.name, frozenset()) if isinstance(node, Call) else frozenset()

    def change(node: Expr | Stmt) -> Expr | Stmt:
        if isinstance(node, UnsetFields):
            return some_field(state, node, named)
        if isinstance(node, EndOfObject):
            return end_of_object(state, node)
        return node
    return bottom_up(body, change)


def some_field(state: TextState, node: UnsetFields, named: set[str]) -> Expr:
    """Some field that the function or a callee names holds something."""
    found: Expr = ZERO
    for _, name, place in object_fields(state, node.key, node.base):
        if name in named:
            found = place if found == ZERO else Binary("||", found, place)
    return found


def is_owner(state: TextState, owner: str, name: str, kind: CType) -> bool:
    """The field holds a reference of its own."""
    if WEAK.search(name) or not state.kinds.is_python_object(kind):
        return False
    return not state.is_declared_borrowed(owner, name.removeprefix("f_"))


def end_of_object(state: TextState, node: EndOfObject) -> Stmt:
    """Each field gives its reference up; so does the head, and a reference that was made here."""
    found: list[Stmt] = []
    for owner, name, place in object_fields(state, node.key, node.base) if node.key is not None else ():
        if is_owner(state, owner, name, state.fields[owner][name]):
            found.append(Expression(Assign(place, "=", NULL)))
    if node.gives_type:
        state.use_head()
        head = Arrow(CastTo("struct %s *" % HEAD_TAG, node.base), "t")
        found.append(Expression(Assign(head, "=", NULL)))
    if node.is_made:
        found.append(Expression(Call("Py_XDECREF", (node.base,))))
    return Block(tuple(found), place=node.place)
