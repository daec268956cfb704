"""What the parts of pungi-module hand to one another."""

from __future__ import annotations

from bisect import bisect_right
from dataclasses import dataclass, field
from functools import cached_property


@dataclass(frozen=True, order=True)
class Place:
    """A place in a source file: lines and columns count from 1."""

    file: str
    line: int
    column: int


@dataclass(frozen=True)
class Row:
    """What a call does to references, in the words of docs/CONFIGURATION.md."""

    params: tuple[str, ...]
    result: str
    takes: tuple[int, ...] = ()
    takes_on_success: tuple[int, ...] = ()


@dataclass(frozen=True)
class Assumption:
    """A step beyond the text of a function, on which its verdict rests.

    `name` is one of the names in `assumptions.py`, which also says whether it is weak: whether a fault that rests on
    it may be none.
    """

    name: str
    detail: str
    place: Place


@dataclass
class PreparedFunction:
    """A function of the module, as it stands in the prepared text."""

    name: str
    place: Place
    #: The line of its name in the prepared text.
    printed_line: int
    assumptions: list[Assumption] = field(default_factory=list)
    #: The functions of the module that it calls.
    calls: list[str] = field(default_factory=list)
    #: Those of them that it calls in the prepared text.
    kept: list[str] = field(default_factory=list)
    #: Whether a table of the module names it, so that Python calls it.
    is_in_table: bool = False
    #: Why it does not stand in the prepared text, if it does not.
    not_prepared: str | None = None


@dataclass(frozen=True)
class RowSource:
    """The function of the source for which a row of a prepared text stands."""

    function: str
    #: The number, from 1, that each parameter of the row has in the source; 0 for what is none.
    parameters: tuple[int, ...]


@dataclass(frozen=True)
class OwnConvention:
    """What a function of a prepared text does with references besides what all functions do, in the terms of
    docs/CONFIGURATION.md."""

    #: Its result is a borrowed reference.
    returns_borrowed: bool = False
    #: The numbers, from 1, of the parameters of the text whose reference it takes over.
    takes: tuple[int, ...] = ()


@dataclass
class Prepared:
    """A module as the program reads it."""

    source: str
    #: One C file within the subset that Pungi reads.
    text: str
    #: The rows that the text uses, besides those that Pungi knows by itself.
    rows: dict[str, Row]
    functions: list[PreparedFunction]
    #: From a line and column of the text to the place in the source that it stands for.
    places: dict[tuple[int, int], Place] = field(default_factory=dict)
    #: The conventions of functions of the text. They count where these are judged themselves.
    conventions: dict[str, OwnConvention] = field(default_factory=dict)
    #: Of functions whose parameters have other numbers in the source, these numbers, from 1.
    parameters: dict[str, tuple[int, ...]] = field(default_factory=dict)
    #: Of rows that stand for functions with conventions of their own, which functions these are.
    row_sources: dict[str, RowSource] = field(default_factory=dict)
    #: What the preprocessor had to pass over, such as a header that is not there.
    notes: list[str] = field(default_factory=list)

    @cached_property
    def calls(self) -> dict[str, list[str]]:
        """The functions of the module that each one calls."""
        return {function.name: function.calls for function in self.functions}

    def place_of(self, line: int, column: int) -> Place | None:
        """The place of a token of the text, or of the nearest one before it on its line."""
        columns = self.columns.get(line, [])
        before = bisect_right(columns, column)
        return self.places[line, columns[before - 1]] if before else None

    def line_before(self, place: Place) -> int | None:
        """The last line of the source, up to a place, that something of the text stands for."""
        lines = self.lines.get(place.file, [])
        before = bisect_right(lines, place.line)
        return lines[before - 1] if before else None

    @cached_property
    def lines(self) -> dict[str, list[int]]:
        """The lines of each source file that something of the text stands for, in order."""
        found: dict[str, set[int]] = {}
        for place in self.places.values():
            found.setdefault(place.file, set()).add(place.line)
        return {file: sorted(lines) for file, lines in found.items()}

    @cached_property
    def columns(self) -> dict[int, list[int]]:
        """The columns of the places on each line, in order."""
        found: dict[int, list[int]] = {}
        for line, column in sorted(self.places):
            found.setdefault(line, []).append(column)
        return found


@dataclass(frozen=True)
class Value:
    """A value in a printed run: `null`, `text`, `object` with its number, or `int` with its value.

    A call that parses arguments gives `given` or `failed`, with the number of values that it wrote.
    """

    kind: str
    number: int | None = None


@dataclass(frozen=True)
class Step:
    """A line of a printed run: what the call, global or field at a place of the prepared text gave."""

    line: int
    column: int
    value: Value


@dataclass(frozen=True)
class Run:
    """The run that shows a fault."""

    line: int
    column: int
    object: int
    change: int
    escaped: int
    objects: int
    arguments: tuple[Value, ...]
    steps: tuple[Step, ...]


@dataclass(frozen=True)
class Verdict:
    """What the program reports of one function of the prepared text."""

    function: str
    #: `clean`, `faulty`, `unknown` or `refused`.
    word: str
    #: For `unknown`: `traces`, `number`, `loop`, or another word of the report. For `refused`: `N1` to `N17`.
    reason: str | None = None
    line: int | None = None
    column: int | None = None
    run: Run | None = None
    #: The function whose call is left, where the reason is `call`.
    callee: str | None = None
