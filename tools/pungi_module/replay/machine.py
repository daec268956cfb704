"""What a replayed run has at hand: the steps that are left, the slots that were touched, the object's account."""

from __future__ import annotations

from collections.abc import Mapping
from functools import cached_property

from ..model import Row, Run
from .account import Account, Deed, Object
from .definitions import definitions_of
from .values import STATICS, NotReplayed, from_value

COUNTS = {"Py_INCREF": 1, "Py_XINCREF": 1, "Py_NewRef": 1, "Py_XNewRef": 1, "Py_DECREF": -1, "Py_XDECREF": -1}


class Machine:
    """One run of a prepared text."""

    def __init__(self, text: str, rows: Mapping[str, Row], run: Run) -> None:
        self.text, self.rows, self.run = text, rows, run
        self.definitions = definitions_of(text)
        self.left = list(run.steps)
        self.slots: dict[object, object] = {}
        self.names: dict[int, str] = {}
        self.account = Account(run.object)
        #: The places of the text that the run comes to.
        self.visited: set[tuple[int, int]] = set()
        self.steps = 0

    @cached_property
    def lines(self) -> list[str]:
        """The lines of the text."""
        return self.text.split("\n")

    def name_object(self, name: str, value: object) -> None:
        """Notes the variable that first held an object."""
        if isinstance(value, Object) and value.number >= len(STATICS):
            self.names.setdefault(value.number, name)

    def step_at(self, places: set[tuple[int, int]]) -> object | None:
        """What the next step gave, if it stands at one of these places."""
        if self.left and (self.left[0].line, self.left[0].column) in places:
            return from_value(self.left.pop(0).value)
        return None

    def slot(self, key: object, name: str, places: set[tuple[int, int]]) -> object:
        """What a slot holds; its first touch uses a step."""
        if key not in self.slots:
            held = self.step_at(places)
            self.slots[key] = 0 if held is None else held
            if held == Object(self.run.object):
                self.account.note(min(places), name, Deed.READ)
            self.name_object(name, held)
        return self.slots[key]

    def store(self, key: object, name: str, places: set[tuple[int, int]], value: object) -> None:
        """A store into a slot, with what it means for the object."""
        before, looked_at = self.slot(key, name, places), Object(self.run.object)
        self.slots[key] = value
        if before == looked_at != value:
            self.account.note(min(places), name, Deed.OVERWRITTEN, escaped=-1)
        if value == looked_at != before:
            self.account.note(min(places), name, Deed.STORED, escaped=1)

    def call(self, name: str, at: tuple[int, int], arguments: list[object]) -> object:
        """A call of a function that the text does not define."""
        if name in COUNTS:
            if arguments[0] == Object(self.run.object):
                self.account.note(at, name, Deed.MORE if COUNTS[name] > 0 else Deed.LESS, change=COUNTS[name])
            return arguments[0]
        if name not in self.rows:
            raise NotReplayed(f"no row of {name}")
        given = self.step_at({at})
        result = 0 if given is None else given
        self.account.note_call(at, name, self.rows[name], arguments, result)
        return result
