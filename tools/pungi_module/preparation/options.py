"""What the caller of a preparation may say besides the source."""

from __future__ import annotations

from dataclasses import dataclass, field

from ..convention_file import Convention


@dataclass
class Options:
    """Settings of a preparation."""

    #: Functions of the module and of others, by name.
    conventions: dict[str, Convention] = field(default_factory=dict)
    #: Fields that hold no reference of their own, as (word of the struct, field).
    borrowed_fields: frozenset[tuple[str, str]] = frozenset()
    #: `__init__` may run twice on one object.
    init_twice: bool = False
    #: Calls of the module's functions that do not stay calls, as (caller, callee).
    calls_as_rows: frozenset[tuple[str, str]] = frozenset()
    #: Functions of which less is kept (passes/loosened.py), and those of them of which no numbers are.
    loosened: frozenset[str] = frozenset()
    numberless: frozenset[str] = frozenset()
    #: Functions whose locals are set to `NULL` or 0 where they are dead (passes/dead_locals.py).
    cleared: frozenset[str] = frozenset()
    #: Functions that are not to be prepared, with the reason: the program refused them.
    refused: dict[str, str] = field(default_factory=dict)
