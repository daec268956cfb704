"""A printed run in words, at the lines of the source."""

from __future__ import annotations

import re
from collections.abc import Mapping
from dataclasses import dataclass
from functools import lru_cache
from pathlib import Path

from .model import OwnConvention, Place, Prepared, PreparedFunction, Row, Run
from .replay import Account, Deed, Event, replayed
from .replay.values import STATICS


#: What an object without a variable is called.
UNNAMED = "the object"


@dataclass(frozen=True)
class RunLine:
    """A line of a run: where it is, what happens, and how many references the function owns after it.

    `owned` and `by`, the call or the slot, are there where the line is about the object that is not level.
    """

    place: Place
    words: str
    owned: int | None = None
    by: str = ""


@lru_cache
def source_lines(file: str) -> tuple[str, ...]:
    """The lines of a source file; none where it can't be read."""
    try:
        return tuple(Path(file).read_text(encoding="utf-8", errors="replace").split("\n"))
    except OSError:
        return ()


def source_line(place: Place) -> str:
    """The line of a place, without what ends it."""
    lines = source_lines(place.file)
    return lines[place.line - 1].rstrip() if 0 < place.line <= len(lines) else ""


def run_in_words(
    prepared: Prepared, rows: Mapping[str, Row], function: PreparedFunction, run: Run
) -> tuple[str, list[RunLine], set[tuple[str, int]] | None]:
    """What a fault is, the run line by line, and the lines of the source that it comes to, where that is known."""
    convention = prepared.conventions.get(function.name, OwnConvention())
    followed = replayed(prepared.text, rows, function.name, run, convention)
    name = called(run.object, followed.names if followed else {})
    lines = event_lines(prepared, function, followed.account, name) if followed else step_lines(prepared, run)
    place = prepared.place_of(run.line, run.column) or function.place
    message = headline(function.name, run, "an object" if name == UNNAMED else name, origin_words(run, lines))
    return message, [*lines, RunLine(place, ending(run))], lines_of(prepared, followed.visited) if followed else None


def lines_of(prepared: Prepared, visited: set[tuple[int, int]]) -> set[tuple[str, int]]:
    """The lines of the source that places of the text stand for."""
    found = (prepared.place_of(line, column) for line, column in visited)
    return {(place.file, place.line) for place in found if place is not None}


def ending(run: Run) -> str:
    """What is wrong at the return."""
    more = run.change - run.escaped
    return f"return, with {plural(abs(more), 'reference')} too {'many' if more > 0 else 'few'}"


def plural(count: int, word: str) -> str:
    """`1 reference`, `2 references`."""
    return f"{count} {word}{'' if count == 1 else 's'}"


def headline(function: str, run: Run, what: str, origin: str) -> str:
    """The fault in one line."""
    more = run.change - run.escaped
    if more > 0:
        return f"{function} leaks {plural(more, 'reference')} to {what}{origin}"
    return f"{function} gives up {plural(-more, 'reference')} to {what} that it does not own{origin}"


def called(number: int, names: Mapping[int, str]) -> str:
    """How an object is called: by the first variable that held it."""
    if number < len(STATICS):
        return STATICS[number]
    return names.get(number, UNNAMED)


def origin_words(run: Run, lines: list[RunLine]) -> str:
    """Where the run meets the object of a fault first."""
    first = next((t for t in lines if t.owned is not None), None)
    if run.object < len(STATICS):
        return ""
    if any(v.kind == "object" and v.number == run.object for v in run.arguments):
        return " (an argument)"
    return f" ({first.by} in line {first.place.line})" if first else ""


def event_lines(prepared: Prepared, function: PreparedFunction, account: Account, name: str) -> list[RunLine]:
    """The lines of a run that was followed."""
    lines = []
    for event in account.events:
        at_start = event.deed is Deed.GIVEN
        place = function.place if at_start else prepared.place_of(event.line, event.column) or function.place
        by = shown_name(event.name, place)
        words = event_words(event, by, name)
        if words and event.deed is Deed.FAILED:
            lines.append(RunLine(place, words))
        elif words:
            lines.append(RunLine(place, words, event.owned, by))
    return lines


def event_words(event: Event, by: str, name: str) -> str:
    """What an event does, in words."""
    return {
        Deed.NEW: f"{by} returns a new reference to {name}",
        Deed.BORROWED: f"{by} returns {name}, which is borrowed",
        Deed.MORE: by,
        Deed.LESS: by,
        Deed.TAKEN: f"{by} takes over the reference",
        Deed.GIVEN: f"{by} takes over a reference to {name}",
        Deed.STORED: f"stored in {by}",
        Deed.OVERWRITTEN: f"{by} no longer holds it",
        Deed.READ: f"{by} holds {'it' if name == by else name}",
        Deed.FAILED: f"{by} fails" if by else "",
        Deed.RETURNED: "",
    }[event.deed]


def shown_name(name: str, place: Place) -> str:
    """The name of a call as the source has it: rows may have a name of their own."""
    line = source_line(place)
    plain = re.sub(r"(_done|_\d+)+$", "", name)
    for known in (name, plain, plain.removeprefix("pungi_call_"), plain.removeprefix("pungi_")):
        if re.search(rf"\b{re.escape(known)}\b", line):
            return known
    word = re.match(r"\w+", line[place.column - 1 :]) if name.startswith("pungi_") else None
    return word.group() if word else "" if name.startswith("pungi_") else plain


def step_lines(prepared: Prepared, run: Run) -> list[RunLine]:
    """The lines of a run that was not followed: what each call gave."""
    text = prepared.text.split("\n")
    lines = []
    for step in run.steps:
        place = prepared.place_of(step.line, step.column)
        word = re.match(r"\w+", text[step.line - 1][step.column - 1 :]) if step.line <= len(text) else None
        name = shown_name(word.group() if word else "", place) if place else ""
        if place is None or not name:
            continue
        if step.value.kind == "object" and step.value.number == run.object:
            lines.append(RunLine(place, f"{name} gives the object", 0, name))
        elif step.value.kind == "null" or step.value.number == -1:
            lines.append(RunLine(place, f"{name} fails"))
    return lines
