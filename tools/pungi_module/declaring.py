"""Finds the conventions that a package follows, and what is clean where they are declared."""

from __future__ import annotations

import re
from collections.abc import Iterator, Mapping, Sequence
from dataclasses import replace
from pathlib import Path

from .compilation import Source
from .convention_file import Convention, merge, table_of
from .conventions import find_conventions
from .function_text import find_functions
from .judge import Judge
from .judged import Judged
from .judging import FAILURES, Settings, over_all
from .model import Prepared
from .variant import source_of

#: A convention of one function shows others, of those that call it.
ROUNDS = 2

Package = Sequence[tuple[Source, Judged]]


def with_conventions(package: Package, settings: Settings, jobs: int) -> tuple[list[Judged], list[Convention]]:
    """The modules, each with the lines that make its faulty functions clean, and the conventions that were found.

    A convention that is found is declared, and what it touches is prepared and judged again.
    """
    found: dict[str, Convention] = {}
    current = [judged for _, judged in package]
    for _ in range(ROUNDS):
        new = new_conventions(current, settings, found, jobs)
        if not new:
            break
        found |= new
        current = judged_again([source for source, _ in package], current, settings, found, new, jobs)
    judged = [explained(first, last, found) for (_, first), last in zip(package, current, strict=True)]
    return judged, list(found.values())


def new_conventions(
    modules: Sequence[Judged], settings: Settings, known: Mapping[str, Convention], jobs: int
) -> dict[str, Convention]:
    """The conventions that make faulty functions clean, of functions of which none is known yet.

    A function that stands in a table is called by Python, which knows no conventions but its own.
    """
    if all(verdict.word != "faulty" for one in modules for verdict in one.verdicts.values()):
        return {}
    spoken = known.keys() | settings.declared.conventions.keys() | settings.declared.rows.keys()
    python_calls = {f.name for one in modules for f in one.prepared.functions if f.is_in_table}
    verdicts = {mark: verdict for one in modules for mark, verdict in one.known.verdicts.items()}
    judge = Judge(settings.seconds, settings.program, settings.profile, verdicts)
    try:
        found = find_conventions([one.prepared for one in modules], judge, rounds=1, jobs=jobs)
    except FAILURES:
        return {}
    return {one.name: one for one in found if one.name not in spoken and one.name not in python_calls}


def judged_again(
    sources: Sequence[Source],
    modules: Sequence[Judged],
    settings: Settings,
    found: Mapping[str, Convention],
    new: Mapping[str, Convention],
    jobs: int,
) -> list[Judged]:
    """The modules, judged again where they define or call what has a new convention."""
    declared = replace(settings, declared=merge(settings.declared, found.values()))
    touched = [bool(new.keys() & names_of(source, one.prepared)) for source, one in zip(sources, modules, strict=True)]
    files = [source for source, again in zip(sources, touched, strict=True) if again]
    known = [one.known for one, again in zip(modules, touched, strict=True) if again]
    judged = over_all(files, declared, jobs, known)
    return [kept_or_judged(one, judged) if again else one for one, again in zip(modules, touched, strict=True)]


def kept_or_judged(before: Judged, again: Iterator[Judged | Exception]) -> Judged:
    """The module as it was judged again, or as it was where that failed."""
    after = next(again)
    return after if isinstance(after, Judged) else before


def names_of(source: Source, prepared: Prepared) -> set[str]:
    """The functions that a module defines or calls; a call without a part in counts may stand in its source alone."""
    words = re.findall(r"\w+", Path(source.path).read_text(encoding="latin-1"))
    return {*words, *prepared.rows, *(name for one in prepared.functions for name in (one.name, *one.calls))}


def explained(first: Judged, last: Judged, found: Mapping[str, Convention]) -> Judged:
    """The module as it was judged first, with the lines under which its faulty functions are clean."""
    lines = {name: lines_for(name, last.prepared, found) for name, verdict in first.verdicts.items()
             if verdict.word == "faulty" and name in last.verdicts and last.verdicts[name].word == "clean"}
    return replace(first, conventions={name: text for name, text in lines.items() if text})


def lines_for(name: str, prepared: Prepared, found: Mapping[str, Convention]) -> str:
    """The lines that declare what makes a function clean: its own convention, or else those of what it may call."""
    if name in found:
        return table_of(found[name])
    words = find_functions(prepared.text)[name].words
    called = {source_of(prepared, row).function for row in prepared.rows.keys() & words} | words
    return "".join(table_of(found[callee]) for callee in sorted(called & found.keys()))
