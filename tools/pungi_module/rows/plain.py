"""Reads the rows that the words of docs/CONFIGURATION.md describe."""

from __future__ import annotations

import tomllib
from collections.abc import Mapping
from functools import cache
from pathlib import Path
from types import MappingProxyType
from typing import Any

from ..model import Row

#: The words that a parameter may have.
PARAMETERS = ("object", "object?", "int", "long", "size", "text", "text?")
#: The words that a result may have.
RESULTS = (
    "new", "borrowed", "borrowed_sure", "status", "truth", "size", "int", "long", "text", "void", "null",
)  # fmt: skip
DIRECTORY = Path(__file__).parent / "plain"


class RowError(ValueError):
    """A row that says what no row can say. The text names the function and the key."""


@cache
def load_rows() -> Mapping[str, Row]:
    """The row of each call, by its name."""
    rows: dict[str, Row] = {}
    for name, table in read_tables(DIRECTORY, "function"):
        rows[name] = row_of(name, table)
    return MappingProxyType(rows)


def read_tables(directory: Path, key: str) -> list[tuple[str, dict[str, Any]]]:
    """The tables under `key` of all files of a directory. A name that stands twice is an error."""
    found: dict[str, dict[str, Any]] = {}
    for path in sorted(directory.glob("*.toml")):
        for name, table in tomllib.loads(path.read_text(encoding="utf-8"))[key].items():
            if name in found:
                raise RowError(f"{name}: described twice, the second time in {path.name}")
            found[name] = table
    return list(found.items())


def row_of(name: str, table: dict[str, Any]) -> Row:
    """The row that a table of a configuration describes, by the rules of docs/CONFIGURATION.md."""
    unknown = set(table) - {"params", "result", "takes", "takes_on_success"}
    if unknown:
        raise RowError(f"{name}.{min(unknown)}: unknown key")
    row = Row(
        tuple(table["params"]),
        table["result"],
        tuple(table.get("takes", ())),
        tuple(table.get("takes_on_success", ())),
    )
    check_row(name, row)
    return row


def check_row(name: str, row: Row) -> None:
    """Raises `RowError` where the program would refuse the row."""
    if len(row.params) > 8 or not set(row.params) <= set(PARAMETERS):
        raise RowError(f"{name}.params: at most eight of {', '.join(PARAMETERS)}")
    if row.result not in RESULTS:
        raise RowError(f"{name}.result: none of {', '.join(RESULTS)}")
    check_numbers(name, row.params, row.takes + row.takes_on_success)
    if row.takes_on_success and row.result not in ("new", "status"):
        raise RowError(f"{name}.takes_on_success: the result shows no failure")


def check_numbers(name: str, params: tuple[str, ...], numbers: tuple[int, ...]) -> None:
    """Raises `RowError` unless the numbers are those of different object parameters."""
    objects = {i for i, word in enumerate(params, 1) if word in ("object", "object?")}
    if len(set(numbers)) != len(numbers) or not set(numbers) <= objects:
        raise RowError(f"{name}.takes: not the numbers of object parameters, each once")
