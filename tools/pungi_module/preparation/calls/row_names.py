"""Calls of which the rows of the API say that no run goes on after them, or that an object ends there."""

from __future__ import annotations

from functools import cache

from ...rows import load_wide_rows


@cache
def stopping_calls() -> frozenset[str]:
    """The calls after which a run does not go on."""
    return frozenset(name for name, row in load_wide_rows().items() if row.result == "never") | {"pungi_stop"}


@cache
def freeing_calls() -> frozenset[str]:
    """The calls that free an object."""
    return frozenset(name for name, row in load_wide_rows().items() if row.ends)
