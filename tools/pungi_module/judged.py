"""A module that was prepared and judged."""

from __future__ import annotations

from collections.abc import Mapping
from dataclasses import dataclass, field

from .model import Prepared, Row, Verdict


@dataclass(frozen=True)
class Known:
    """What is known of a module when it is judged again."""

    #: The verdicts by what the program reads of the functions (`judge.marks_of`).
    verdicts: Mapping[str, Verdict] = field(default_factory=dict)
    #: The calls that are better rows (`falling_back.py`).
    calls_as_rows: frozenset[tuple[str, str]] = frozenset()


@dataclass(frozen=True)
class Judged:
    """What the program reports of a prepared module, and how long it took."""

    prepared: Prepared
    verdicts: Mapping[str, Verdict]
    #: The rows of all calls of the text.
    rows: Mapping[str, Row]
    #: The lines that declare the conventions under which a faulty function is clean.
    conventions: Mapping[str, str] = field(default_factory=dict)
    known: Known = field(default_factory=Known)
    seconds_preparing: float = 0.0
    seconds_judging: float = 0.0
