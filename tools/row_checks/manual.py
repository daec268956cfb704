"""Compares the rows with the sources of the Python/C API Reference Manual, `Doc/c-api/*.rst`.

Each function of the manual has a row, and each whose description says that it 'steals' takes a reference over.
"""

from __future__ import annotations

import re
from collections.abc import Iterator
from pathlib import Path

from pungi_module.model import Row
from pungi_module.rows import Output, WideRow

from .reference_counts import Difference

DIRECTIVE = re.compile(r"(?P<indent>\s*)\.\. c:(?:function|macro):: (?P<signature>.*)")
CALLED = re.compile(r"(\w+)\s*\(")
#: Words of descriptions that speak of taking a reference over.
STEALS = re.compile(r"\b(?:[Ss]teals?|stolen)\b")
#: Outputs that give up what the variable held.
GIVES_UP = (Output.REPLACED, Output.CLEARED, Output.STORED)


def read_manual(directory: Path) -> dict[str, str]:
    """The descriptions of the functions, and of the macros that take arguments."""
    found: dict[str, str] = {}
    for path in sorted(directory.glob("*.rst")):
        text = path.read_text(encoding="utf-8").replace("\\\n", " ")
        for names, description in entries(text.splitlines()):
            for name in names:
                found[name] = found.get(name, "") + description
    return found


def entries(lines: list[str]) -> Iterator[tuple[list[str], str]]:
    """The names that an entry describes together, with what it says of them."""
    for number, line in enumerate(lines):
        match = DIRECTIVE.match(line)
        if match is None:
            continue
        signatures = [match["signature"]]
        description: list[str] = []
        for below in lines[number + 1 :]:
            if below.strip() and len(below) - len(below.lstrip()) <= len(match["indent"]):
                break
            if not description and CALLED.search(below) and below.strip():
                signatures.append(below.strip())
            else:
                description.append(below)
        names = [called[1] for signature in signatures if (called := CALLED.search(signature))]
        yield names, "\n".join(description)


def differences(
    rows: dict[str, Row], wide: dict[str, WideRow], manual: dict[str, str]
) -> list[Difference]:
    """Where rows and manual differ."""
    found: list[Difference] = []
    for name, description in sorted(manual.items()):
        row = rows.get(name) or wide.get(name)
        if row is None:
            found.append(Difference(name, "function", "no row", "in the manual"))
        elif STEALS.search(description) and not takes_over(row):
            found.append(Difference(name, "steals", "takes nothing over", "the manual says so"))
    return found


def takes_over(row: Row | WideRow) -> bool:
    """Whether a call takes over or gives up any reference of the caller."""
    if isinstance(row, Row):
        return bool(row.takes or row.takes_on_success)
    return bool(row.takes) or any(output in GIVES_UP for output in row.outputs.values())
