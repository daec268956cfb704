"""Writes the configuration of a run, as docs/CONFIGURATION.md has it: the version of Python, the conventions of the
functions of a text, and the rows that it uses."""

from __future__ import annotations

import json
import re
from collections.abc import Iterable, Mapping
from dataclasses import dataclass
from enum import Enum

from .model import OwnConvention, Row
from .rows import load_known
from .rows.plain import RowError, check_row

#: The limits of the program: of rows, and as many of conventions.
MOST_ROWS = MOST_CONVENTIONS = 512
MOST_BYTES = 65_536
WORD = re.compile(r"[A-Za-z_]\w*", re.ASCII)


class Profile(str, Enum):
    """The version of Python by which functions are judged. In 3.12 `None`, `True` and `False` are not counted."""

    PYTHON_311 = "3.11"
    PYTHON_312 = "3.12"


@dataclass(frozen=True)
class Configuration:
    """The configuration of a run."""

    #: The TOML that the program reads, empty where nothing is to be said.
    text: str
    #: The rows and conventions that could not be written, each with the reason. Calls of such rows are refused by rule
    #: N9, and of functions with such conventions the verdicts say nothing.
    left_out: dict[str, str]


class Tables:
    """The tables of a configuration, up to the limits of the program."""

    def __init__(self, head: str) -> None:
        self.parts = [head]
        self.size = len(head)
        self.left_out: dict[str, str] = {}

    def add(self, sort: str, limit: int, tables: Iterable[tuple[str, str, str | None]]) -> None:
        """Adds tables of one sort: of each its name, its text, and why the program would refuse it, if it would."""
        count = 0
        for name, text, refusal in tables:
            length = len(text.encode())
            if refusal is not None:
                self.left_out[name] = refusal
            elif count == limit:
                self.left_out[name] = f"over {limit} {sort}"
            elif self.size + length > MOST_BYTES:
                self.left_out[name] = f"over {MOST_BYTES:,} bytes"
            else:
                self.parts.append(text)
                self.size += length
                count += 1


def write_configuration(
    rows: Mapping[str, Row],
    conventions: Mapping[str, OwnConvention] | None = None,
    profile: Profile = Profile.PYTHON_311,
) -> Configuration:
    """The configuration with these rows and conventions.

    Calls that Pungi judges by itself need no row. Where the tables exceed a limit of the program, the first ones are
    written, and conventions before rows.
    """
    known = load_known()
    tables = Tables("" if profile is Profile.PYTHON_311 else f'profile = "{profile.value}"\n')
    tables.add("conventions", MOST_CONVENTIONS, [
        (name, convention_table(name, convention), "Pungi knows the name" if name in known.names else None)
        for name, convention in (conventions or {}).items() if convention != OwnConvention()])
    tables.add("rows", MOST_ROWS, [
        (name, row_table(name, row), "Pungi knows the name" if name in known.names else reason_against(name, row))
        for name, row in rows.items() if name not in known.judged])
    return Configuration("".join(tables.parts), tables.left_out)


def reason_against(name: str, row: Row) -> str | None:
    """Why the program would refuse a row, if it would."""
    if WORD.fullmatch(name) is None:
        return "no word of C"
    try:
        check_row(name, row)
    except RowError as error:
        return str(error)
    return None


def row_table(name: str, row: Row) -> str:
    """The table of a row, as TOML."""
    lines = [f"[function.{name}]", f"params = {json.dumps(row.params)}", f'result = "{row.result}"']
    if row.takes:
        lines.append(f"takes = {json.dumps(row.takes)}")
    if row.takes_on_success:
        lines.append(f"takes_on_success = {json.dumps(row.takes_on_success)}")
    return "\n".join(lines) + "\n"


def convention_table(name: str, convention: OwnConvention) -> str:
    """The table of a convention, as TOML."""
    lines = [f"[convention.{name}]"]
    if convention.returns_borrowed:
        lines.append('returns = "borrowed"')
    if convention.takes:
        lines.append(f"takes = {json.dumps(convention.takes)}")
    return "\n".join(lines) + "\n"
