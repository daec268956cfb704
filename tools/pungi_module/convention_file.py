"""The file in which an author declares what holds in a package beyond what its texts show.

It is a file of TOML with up to three kinds of tables:

    [convention.Box_item]       # a function of the package or of a library: what its callers may rely on
    returns = "borrowed"        # its result is a borrowed reference; "new" where nothing is said
    takes = [2]                 # the numbers, from 1, of the parameters whose reference it takes over
    outputs = { 3 = "new?" }    # what it writes through a pointer: "new", "new?", "borrowed", "kept" or "replaced"

    [function.library_call]     # a call of a library, by a whole row as in docs/CONFIGURATION.md
    params = ["object", "text"]
    result = "status"

    [struct.Node]               # a struct of the package
    borrowed = ["parent"]       # its fields that hold no reference of their own
"""

from __future__ import annotations

import json
import tomllib
from collections.abc import Iterable
from dataclasses import dataclass, field
from typing import Any

from .configuration import WORD
from .model import Row
from .rows import Output
from .rows.plain import RowError, row_of

FOUND = "# Found by pungi-module. Keep what is meant, and mend the functions where it is not.\n"


#: What a function may do to the object to whose variable it gets a pointer, in the words of rows/wide.py.
OUTPUTS = ("new", "new?", "borrowed", "kept", "replaced")


class ConventionError(ValueError):
    """A file of conventions that cannot be read. The text is the wrong key, with the reason."""


@dataclass(frozen=True)
class Convention:
    """What the callers of a function may rely on."""

    name: str
    #: `new` or `borrowed`.
    returns: str = "new"
    #: The numbers, from 1, of the parameters whose reference the function takes over.
    takes: tuple[int, ...] = ()
    #: What it writes through its pointers, by the number of the parameter.
    outputs: dict[int, Output] = field(default_factory=dict, hash=False)

    @property
    def returns_borrowed(self) -> bool:
        """Its result is a borrowed reference."""
        return self.returns == "borrowed"


@dataclass
class Declared:
    """What an author declares."""

    conventions: dict[str, Convention] = field(default_factory=dict)
    #: Rows of calls of other files.
    rows: dict[str, Row] = field(default_factory=dict)
    #: Fields that hold no reference of their own, by struct.
    borrowed_fields: dict[str, frozenset[str]] = field(default_factory=dict)


def read_conventions(text: str) -> Declared:
    """What the text of a file declares."""
    try:
        tables = tomllib.loads(text)
    except tomllib.TOMLDecodeError as error:
        raise ConventionError(f"not TOML: {error}") from error
    declared = Declared()
    for kind, named in tables.items():
        if kind not in ("convention", "function", "struct"):
            raise ConventionError(f"{kind}: neither `convention`, `function` nor `struct`")
        for name, table in entries(kind, named):
            if kind == "convention":
                declared.conventions[name] = convention_of(name, table)
            elif kind == "function":
                declared.rows[name] = declared_row(name, table)
            else:
                declared.borrowed_fields[name] = borrowed_of(name, table)
    both = declared.conventions.keys() & declared.rows.keys()
    if both:
        raise ConventionError(f"function.{min(both)}: declared as a convention as well")
    return declared


def entries(kind: str, named: Any) -> list[tuple[str, dict[str, Any]]]:
    """The tables of one kind, by their names."""
    if not isinstance(named, dict):
        raise ConventionError(f"{kind}: no table")
    for name, table in named.items():
        if WORD.fullmatch(name) is None:
            raise ConventionError(f"{kind}.{name}: no word of C")
        if not isinstance(table, dict) or not table:
            raise ConventionError(f"{kind}.{name}: no table, or an empty one")
    return list(named.items())


def convention_of(name: str, table: dict[str, Any]) -> Convention:
    """The convention that a table declares."""
    key = f"convention.{name}"
    for word in table:
        if word not in ("returns", "takes", "outputs"):
            raise ConventionError(f"{key}.{word}: neither `returns`, `takes` nor `outputs`")
    returns = table.get("returns", "new")
    if returns not in ("new", "borrowed"):
        raise ConventionError(f"{key}.returns: neither `new` nor `borrowed`")
    takes = table.get("takes", [])
    if not is_numbers(takes):
        raise ConventionError(f"{key}.takes: no list of different numbers from 1")
    outputs = table.get("outputs", {})
    if not isinstance(outputs, dict) or not all(n.isdecimal() and w in OUTPUTS for n, w in outputs.items()):
        raise ConventionError(f"{key}.outputs: no table from numbers to {', '.join(OUTPUTS)}")
    return Convention(name, returns, tuple(takes), {int(n): Output(w) for n, w in outputs.items()})


def is_numbers(value: Any) -> bool:
    """Whether a value is a list of different whole numbers from 1."""
    if not isinstance(value, list) or any(type(number) is not int or number < 1 for number in value):
        return False
    return len(set(value)) == len(value)


def declared_row(name: str, table: dict[str, Any]) -> Row:
    """The row that a table declares."""
    for word in ("params", "result"):
        if word not in table:
            raise ConventionError(f"function.{name}: no `{word}`")
    try:
        return row_of(name, table)
    except (RowError, TypeError) as error:
        raise ConventionError(f"function.{error}") from error


def borrowed_of(name: str, table: dict[str, Any]) -> frozenset[str]:
    """The borrowed fields that a table declares."""
    fields = table.get("borrowed")
    if set(table) != {"borrowed"} or not isinstance(fields, list):
        raise ConventionError(f"struct.{name}: a list `borrowed` and nothing else")
    if not all(isinstance(word, str) and WORD.fullmatch(word) for word in fields):
        raise ConventionError(f"struct.{name}.borrowed: no list of words")
    return frozenset(fields)


def table_of(convention: Convention) -> str:
    """A convention as the lines of a file."""
    lines = [f"[convention.{convention.name}]"]
    if convention.returns != "new":
        lines.append(f'returns = "{convention.returns}"')
    if convention.takes:
        lines.append(f"takes = {json.dumps(convention.takes)}")
    if convention.outputs:
        pairs = ", ".join(f'{number} = "{output.value}"' for number, output in sorted(convention.outputs.items()))
        lines.append(f"outputs = {{ {pairs} }}")
    return "\n".join(lines) + "\n"


def extend(text: str, found: Iterable[Convention]) -> str:
    """The text of a file with the conventions that were found, except those of functions that it speaks of."""
    declared = read_conventions(text)
    spoken = declared.conventions.keys() | declared.rows.keys()
    parts = [table_of(convention) for convention in found if convention.name not in spoken]
    if not parts:
        return text
    before = "" if not text else text.rstrip("\n") + "\n\n"
    return before + FOUND + "\n" + "\n".join(parts)


def merge(declared: Declared, found: Iterable[Convention]) -> Declared:
    """What the author declares, and what was found of functions that the author does not speak of."""
    spoken = declared.conventions.keys() | declared.rows.keys()
    more = {convention.name: convention for convention in found if convention.name not in spoken}
    return Declared(declared.conventions | more, declared.rows, declared.borrowed_fields)
