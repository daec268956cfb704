"""The units of the formats of PyArg_Parse and Py_BuildValue (Python/C API Reference Manual 3.11, 'Parsing arguments and
building values')."""

from __future__ import annotations

import re
from dataclasses import dataclass


@dataclass(frozen=True)
class Unit:
    """A unit: its letters, how many arguments it has, and whether an argument may be left out where it stands."""

    letters: str
    arguments: int
    is_optional: bool = False


PARSE_UNIT = re.compile(r"[szy]\*|w\*|[szy]#|e[st]#|e[st]|O!|O&|[A-Za-z]|[|$();: ]")
BUILD_UNIT = re.compile(r"[szyu]#|O&|[A-Za-z]")

#: How many arguments a unit has that has not one.
PARSE_ARGUMENTS = {"s#": 2, "z#": 2, "y#": 2, "es": 2, "et": 2, "es#": 3, "et#": 3, "O!": 2, "O&": 2}
BUILD_ARGUMENTS = {"s#": 2, "z#": 2, "y#": 2, "u#": 2, "O&": 2}


def parse_units(text: str) -> list[Unit]:
    """The units of a format of PyArg_Parse."""
    found, optional = [], False
    for letters in PARSE_UNIT.findall(re.split("[:;]", text)[0]):
        if letters == "|":
            optional = True
        elif letters not in ("$", "(", ")", " "):
            found.append(Unit(letters, PARSE_ARGUMENTS.get(letters, 1), optional))
    return found


def build_units(text: str) -> list[Unit]:
    """The units of a format of Py_BuildValue."""
    return [Unit(letters, BUILD_ARGUMENTS.get(letters, 1)) for letters in BUILD_UNIT.findall(text)]
