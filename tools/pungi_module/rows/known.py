"""Reads the names that Pungi knows by itself."""

from __future__ import annotations

import tomllib
from dataclasses import dataclass
from pathlib import Path

FILE = Path(__file__).parent / "known.toml"


@dataclass(frozen=True)
class Known:
    """The names that a configuration must not describe."""

    #: The calls that Pungi judges.
    judged: frozenset[str]
    #: The calls whose names are taken, and that it refuses today.
    reserved: frozenset[str]
    #: Keywords, predefined macros, types and objects.
    other: frozenset[str]

    @property
    def names(self) -> frozenset[str]:
        """All of them."""
        return self.judged | self.reserved | self.other


def load_known() -> Known:
    """The names as `known.toml` has them."""
    lists = tomllib.loads(FILE.read_text(encoding="utf-8"))
    return Known(*(frozenset(lists[key]) for key in ("judged", "reserved", "other")))
