"""Runs a function of the prepared text along a printed run, and says what happens to the object that is not level."""

from __future__ import annotations

from collections.abc import Mapping
from dataclasses import dataclass

from ..model import OwnConvention, Row, Run, Value
from .account import Account, Deed, Event, Object
from .definitions import place_at
from .machine import Machine
from .statements import Statements
from .values import BREAKS, Goto, NotReplayed, from_value

__all__ = ["Account", "Deed", "Event", "Followed", "replayed"]


@dataclass(frozen=True)
class Followed:
    """A run that was followed to its end."""

    #: What happened to the object that is not level.
    account: Account
    #: How objects are called, by their numbers.
    names: dict[int, str]
    #: The places of the text that the run comes to.
    visited: set[tuple[int, int]]


def replayed(
    text: str, rows: Mapping[str, Row], function: str, run: Run, convention: OwnConvention = OwnConvention()
) -> Followed | None:
    """What a run of a function with this convention does; nothing where it can't be followed.

    What was followed is the printed run: it uses all of its steps, and ends with the printed change and escapes. A
    reference that the function takes over is an escape less from the start, and a result that it lends is none.
    """
    machine = Machine(text, rows, run)
    account = machine.account
    try:
        start = place_at(text, machine.definitions[function].body)
        for number in convention.takes:
            if run.arguments[number - 1 : number] == (Value("object", run.object),):
                account.note(start, function, Deed.GIVEN, escaped=-1)
        result = Statements(machine, {}).call_function(function, [from_value(v) for v in run.arguments])
    except (NotReplayed, Goto, *BREAKS, RecursionError, KeyError, ValueError):
        return None
    except Exception as fault:  # pycparser's own errors have no common type over its releases
        if type(fault).__name__ != "ParseError":
            raise
        return None
    if result == Object(run.object):
        account.note((run.line, run.column), function, Deed.RETURNED, escaped=int(not convention.returns_borrowed))
    if machine.left or (account.change, account.escaped) != (run.change, run.escaped):
        return None
    return Followed(account, machine.names, machine.visited)
