"""The formats in which findings are printed."""

from __future__ import annotations

from collections.abc import Callable, Sequence

from ..results import Report
from . import as_json, github, sarif, text
from .shown import Shown

#: Each format prints all reports at once.
FORMATS: dict[str, Callable[[Sequence[Report], Shown], str]] = {
    "text": text.printed,
    "github": github.printed,
    "sarif": sarif.printed,
    "json": as_json.printed,
}

__all__ = ["FORMATS", "Shown"]
