"""Promises that are tried on the functions of a prepared module, many in one text: each on a copy of its function.

A copy needs the declarations, the functions that it calls, and the rows that are called. A promise of its own is the
convention of the copy's name; where the promise is one of a row, that row has a new name. A copy stands for its
function itself: others call the function as it is.
"""

from __future__ import annotations

import re
from collections.abc import Collection, Sequence
from dataclasses import dataclass, replace

from .convention_file import Convention
from .function_text import find_functions
from .judge import Judging
from .model import OwnConvention, Prepared, Row
from .program import ProgramError
from .reached import reached
from .replay.definitions import calls_in, definitions_of, with_only
from .variant import own_convention, row_under, source_of

#: So many trials stand in one text.
MOST_TRIALS = 100
#: The rows whose names begin so are the preparation's own, unless it says for which function they stand.
OWN_CALLS = "pungi_"
WORD = re.compile(r"\b[A-Za-z_]\w*")


@dataclass(frozen=True)
class Trial:
    """A function, and a promise of its own or of one that it calls."""

    function: str
    promise: Convention


def clean_trials(prepared: Prepared, trials: Sequence[Trial], judge: Judging) -> set[Trial]:
    """The trials in which the function is clean. Those of a text without verdicts are tried in halves."""
    if not trials:
        return set()
    if len(trials) <= MOST_TRIALS:
        try:
            clean = {verdict.function for verdict in judge(with_copies(prepared, trials)) if verdict.word == "clean"}
        except ProgramError:
            clean = None
        if clean is not None:
            return {trial for number, trial in enumerate(trials) if copy_name(trial.function, number) in clean}
    middle = len(trials) // 2
    if not middle:
        return set()
    return clean_trials(prepared, trials[:middle], judge) | clean_trials(prepared, trials[middle:], judge)


def with_copies(prepared: Prepared, trials: Sequence[Trial]) -> Prepared:
    """The module with a copy for each trial in place of its functions."""
    rows, conventions, copies = dict(prepared.rows), dict(prepared.conventions), []
    for number, trial in enumerate(trials):
        text, new = copied(prepared, trial, number)
        copies.append(text)
        rows |= new
        conventions[copy_name(trial.function, number)] = convention_of(prepared, trial)
    calls = calls_in(prepared.text)
    called = reached({callee for trial in trials for callee in calls[trial.function]}, calls)
    text = f"{with_only(prepared.text, called)}\n" + "\n".join(copies)
    return replace(prepared, text=text, rows=rows, conventions=conventions)


def convention_of(prepared: Prepared, trial: Trial) -> OwnConvention:
    """The convention of a trial's function, with its promise where that is one of its own."""
    if trial.promise.name != trial.function:
        return prepared.conventions.get(trial.function, OwnConvention())
    return own_convention(prepared, find_functions(prepared.text)[trial.function], trial.promise)


def copy_name(word: str, number: int) -> str:
    """What a function or row is called in a copy."""
    return f"{word}__{number}"


def copied(prepared: Prepared, trial: Trial, number: int) -> tuple[str, dict[str, Row]]:
    """The copy of a trial's function, and the rows that only it calls."""
    text, promise = prepared.text, trial.promise
    definition = definitions_of(text)[trial.function]
    rows: dict[str, Row] = {}
    for name in prepared.rows.keys() & find_functions(text)[trial.function].words:
        source = source_of(prepared, name)
        if source.function == promise.name:
            rows[name] = row_under(prepared.rows[name], promise, source.parameters)
    head, body = text[definition.start : definition.body].strip(), text[definition.body : definition.end]
    text = renamed(head, {trial.function}, number) + renamed(body, rows.keys(), number)
    return text, {copy_name(name, number): row for name, row in rows.items()}


def renamed(text: str, words: Collection[str], number: int) -> str:
    """The text of a copy, where these words are called as they are there."""
    return WORD.sub(lambda word: copy_name(word[0], number) if word[0] in words else word[0], text)


def rows_by_function(prepared: Prepared, words: frozenset[str]) -> dict[str, list[str]]:
    """The rows among these words that stand for functions, by the function."""
    found: dict[str, list[str]] = {}
    for name in prepared.rows.keys() & words:
        if name in prepared.row_sources or not name.startswith(OWN_CALLS):
            found.setdefault(source_of(prepared, name).function, []).append(name)
    return found
