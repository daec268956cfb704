"""Reads the rows of calls that need more words than a configuration has.

Such a call has parameters or results that are no object, text, `int`, `long` or `Py_ssize_t`, writes through a
pointer, takes any number of arguments, or makes or ends an object. The preparation writes other calls in its place.
Besides the words of a configuration there are

- for a parameter: `any`, a value that holds no object (another number, a pointer to memory, a struct); `output` and
  `output?`, the address of a variable, or also NULL; `array` and `array?`, an array of objects, or also NULL; `...`,
  any number of further arguments;
- for a result: `any`; `converted`, a number other than 0, or 0 where the call fails; `argument`, the object of the
  first object parameter; `argument?`, that or NULL; `array`, an array of borrowed objects; `never`, the call does not
  return;
- `gives`: the numbers of the parameters whose count rises by one, a reference that the caller owns from then on;
- `ends`: those whose object ends there, an `any` being memory that may have been one;
- `outputs`: what is written through which parameter (`Output`), and `written`: when;
- `rest`: what the further arguments are.
"""

from __future__ import annotations

from collections.abc import Mapping
from dataclasses import dataclass, field
from enum import Enum
from functools import cache
from pathlib import Path
from types import MappingProxyType
from typing import Any

from .plain import PARAMETERS, RESULTS, RowError, read_tables

WIDE_PARAMETERS = PARAMETERS + ("any", "output", "output?", "array", "array?", "...")
WIDE_RESULTS = RESULTS + ("any", "converted", "argument", "argument?", "array", "never")
DIRECTORY = Path(__file__).parent / "wide"


class Output(Enum):
    """What a call does to the variable whose address it gets."""

    #: It receives a new reference.
    NEW = "new"
    #: It receives a new reference, or NULL.
    NEW_OR_NULL = "new?"
    #: It receives a borrowed reference.
    BORROWED = "borrowed"
    #: It receives a value that holds no object.
    ANY = "any"
    #: It keeps its reference, perhaps to another object.
    KEPT = "kept"
    #: Its reference is given up, and it receives a new one, or NULL where the call fails.
    REPLACED = "replaced"
    #: Its reference is given up, and it becomes NULL.
    CLEARED = "cleared"
    #: Its reference is given up, and it receives the object parameter that the call takes over.
    STORED = "stored"
    #: The `Py_buffer` receives a new reference.
    BUFFER = "buffer"
    #: The `Py_buffer` gives its reference up.
    RELEASED = "released"


class Written(Enum):
    """When a call writes through its pointers."""

    ALWAYS = "always"
    #: Where it succeeds; elsewhere the variables are untouched.
    SUCCESS = "success"
    #: Where it succeeds; where it fails the variables become NULL.
    NULL_ON_FAILURE = "null_on_failure"
    #: Where the result is 1; elsewhere the variables become NULL.
    NULL_UNLESS_FOUND = "null_unless_found"


class Rest(Enum):
    """What the further arguments of a call are."""

    #: Objects up to a NULL; of `PyTuple_Pack` as many as the first argument says. None is taken over.
    OBJECTS = "objects"
    #: What the format of `Py_BuildValue` asks for.
    BUILD = "build"
    #: Addresses, as the format of `PyArg_ParseTuple` asks for.
    PARSE = "parse"
    #: The same, where the first argument is the object itself for a format of one unit.
    PARSE_ONE = "parse_one"
    #: Addresses of object variables, as many as the maximum says.
    UNPACK = "unpack"
    #: Values that are only looked at.
    VALUES = "values"


@dataclass(frozen=True)
class WideRow:
    """What a call does to references, in the words of a configuration and those of this module."""

    params: tuple[str, ...]
    result: str
    takes: tuple[int, ...] = ()
    gives: tuple[int, ...] = ()
    ends: tuple[int, ...] = ()
    outputs: dict[int, Output] = field(default_factory=dict)
    written: Written | None = None
    rest: Rest | None = None


@cache
def load_wide_rows() -> Mapping[str, WideRow]:
    """The row of each call that needs more words than a configuration has, by its name."""
    return MappingProxyType({name: wide_row_of(name, table) for name, table in read_tables(DIRECTORY, "wide")})


def wide_row_of(name: str, table: dict[str, Any]) -> WideRow:
    """The row that a table describes."""
    unknown = set(table) - set(WideRow.__dataclass_fields__)
    if unknown:
        raise RowError(f"{name}.{min(unknown)}: unknown key")
    row = WideRow(
        params=tuple(table["params"]),
        result=table["result"],
        takes=tuple(table.get("takes", ())),
        gives=tuple(table.get("gives", ())),
        ends=tuple(table.get("ends", ())),
        outputs={int(number): Output(word) for number, word in table.get("outputs", {}).items()},
        written=Written(table["written"]) if "written" in table else None,
        rest=Rest(table["rest"]) if "rest" in table else None,
    )
    check_wide_row(name, row)
    return row


def check_wide_row(name: str, row: WideRow) -> None:
    """Raises `RowError` where the keys of a row do not fit together."""
    if not set(row.params) <= set(WIDE_PARAMETERS) or "..." in row.params[:-1]:
        raise RowError(f"{name}.params: an unknown word, or `...` that is not last")
    if row.result not in WIDE_RESULTS:
        raise RowError(f"{name}.result: unknown word")
    objects = {i for i, word in enumerate(row.params, 1) if word in ("object", "object?")}
    memory = {i for i, word in enumerate(row.params, 1) if word == "any"}
    if not set(row.takes + row.gives) <= objects or not set(row.ends) <= objects | memory:
        raise RowError(f"{name}: takes, gives and ends are numbers of object parameters")
    written = {i for i, word in enumerate(row.params, 1) if word in ("output", "output?")}
    if set(row.outputs) != written or bool(written) != (row.written is not None):
        raise RowError(f"{name}.outputs: one for each output, and `written` says when")
    if ("..." in row.params[-1:]) != (row.rest is not None):
        raise RowError(f"{name}.rest: what `...` stands for, and only then")
