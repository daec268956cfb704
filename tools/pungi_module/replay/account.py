"""What happens to the reference count of one object along a run."""

from __future__ import annotations

from dataclasses import dataclass, field
from enum import Enum

from ..model import Row


class Deed(Enum):
    """What a line of a run does to the object that is looked at, or to the way of the run."""

    NEW = "returns a new reference to"
    BORROWED = "returns a borrowed reference to"
    MORE = "adds a reference to"
    LESS = "gives up a reference to"
    TAKEN = "takes over a reference to"
    GIVEN = "is called with a reference, which it takes over, to"
    STORED = "now holds"
    OVERWRITTEN = "no longer holds"
    READ = "holds"
    RETURNED = "returns"
    FAILED = "fails"


@dataclass(frozen=True)
class Object:
    """An object of a run, by its number."""

    number: int


@dataclass(frozen=True)
class Event:
    """A deed at a place of the prepared text, by a call or a slot of this name."""

    line: int
    column: int
    name: str
    deed: Deed
    #: References that the function owns after it: those it made or was given, less those that escaped.
    owned: int


#: What a call returns where it fails, by the result of its row.
FAILURES = {"new": 0, "borrowed": 0, "text": 0, "status": -1, "truth": -1, "size": -1}


@dataclass
class Account:
    """The changes of one object's count and the references to it that escaped."""

    object: int
    change: int = 0
    escaped: int = 0
    events: list[Event] = field(default_factory=list)

    def note(self, at: tuple[int, int], name: str, deed: Deed, change: int = 0, escaped: int = 0) -> None:
        """Notes what a call or a slot does."""
        self.change += change
        self.escaped += escaped
        self.events.append(Event(*at, name, deed, self.change - self.escaped))

    def note_call(self, at: tuple[int, int], name: str, row: Row, arguments: list[object], result: object) -> None:
        """Notes what a call does by its row."""
        succeeded = (row.result == "new" and result != 0) or (row.result == "status" and result == 0)
        taken = row.takes + (row.takes_on_success if succeeded else ())
        for number in taken:
            if number <= len(arguments) and arguments[number - 1] == Object(self.object):
                self.note(at, name, Deed.TAKEN, escaped=1)
        if result == Object(self.object):
            self.note(at, name, Deed.NEW if row.result == "new" else Deed.BORROWED, change=int(row.result == "new"))
        elif result == FAILURES.get(row.result) and not name.endswith(("_Check", "_CheckExact")):
            self.note(at, name, Deed.FAILED)
