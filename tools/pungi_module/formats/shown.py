"""What is asked to be shown."""

from __future__ import annotations

from dataclasses import dataclass

from ..results import Strictness


@dataclass(frozen=True)
class Shown:
    """What a format prints besides the findings that call for an action."""

    strictness: Strictness = Strictness.MIDDLE
    #: Whether clean functions and the assumptions of each function are printed.
    clean: bool = False
    assumptions: bool = False
    colours: bool = False
