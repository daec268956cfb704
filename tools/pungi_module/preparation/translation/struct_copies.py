"""Assignments of whole structs: each part that is kept is assigned by itself."""

from __future__ import annotations

from collections.abc import Iterator
from functools import lru_cache

from pycparser import c_ast

from ..reading.syntax import below, names_in
from ..text.rows_used import Effect
from ..types.c_types import Struct
from .conversions import any_value, effects_of
from .moves import spelling
from .stores import store
from .targets import target
from .translation import Translation
from .values import Form, Value, opaque

#: How deep a struct's structs are copied.
DEPTH = 3


def copied_struct(t: Translation, node: c_ast.Assignment) -> Value | None:
    """The assignment of a whole struct. Where its right side is no lvalue, such as a call, the parts get any values."""
    place = target(t, node.lvalue)
    if not isinstance(place.type, Struct) or spelling(node.lvalue) is None:
        return None
    is_place = spelling(node.rvalue) is not None
    effects: list[Effect] = [] if is_place else effects_of(t, t.value(node.rvalue))
    for names in parts(t, place.type):
        to = target(t, part_of(node.lvalue, names))
        if to.form == Form.KEPT:
            value = t.value(part_of(node.rvalue, names)) if is_place else any_value(t, to.type, [])
            effects += effects_of(t, store(t, to, value, node))
    return opaque(place.type, effects)


def is_copied(t: Translation, name: str) -> bool:
    """The function copies the struct of that name as a whole, whether all its parts are set by then or not."""
    bodies = [t.node.body, *(t.module.functions[frame.name].body for frame in t.frames)]
    return any(name in copied_names(body) for body in bodies)


@lru_cache(maxsize=64)
def copied_names(body: c_ast.Node) -> frozenset[str]:
    """The names in what assignments and declarations of a body copy from an lvalue."""
    sources = (source for node in below(body) if (source := source_of(node)) is not None)
    return frozenset(name for source in sources if spelling(source) is not None for name in names_in(source))


def source_of(node: c_ast.Node) -> c_ast.Node | None:
    """What an assignment or declaration gives to its target."""
    return node.rvalue if isinstance(node, c_ast.Assignment) else node.init if isinstance(node, c_ast.Decl) else None


def parts(t: Translation, struct: Struct, depth: int = 0) -> Iterator[tuple[str, ...]]:
    """The paths of a struct's members that are no structs."""
    if struct.key not in t.types.structs or t.types.structs[struct.key].is_union:
        return
    for name, member, _ in t.types.members(struct.key):
        kind = t.types.of(member)
        if name is not None and isinstance(kind, Struct) and depth < DEPTH:
            yield from ((name, *names) for names in parts(t, kind, depth + 1))
        elif name is not None:
            yield (name,)


def part_of(node: c_ast.Node, names: tuple[str, ...]) -> c_ast.Node:
    """The expression for a part of a struct that an expression names."""
    for name in names:
        node = c_ast.StructRef(node, ".", c_ast.ID(name, node.coord), node.coord)
    return node
