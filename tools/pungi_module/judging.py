"""Judges a module: prepares it, runs the program on the text, and mends what the program does not take."""

from __future__ import annotations

import time
from collections.abc import Iterator, Mapping, Sequence
from concurrent.futures import ProcessPoolExecutor
from dataclasses import dataclass, field, replace
from functools import cached_property, partial
from pathlib import Path

from .clearing import look_with_cleared
from .compilation import Source
from .configuration import Profile
from .convention_file import Declared
from .falling_back import better_as_rows
from .judge import SECONDS, Judge, Judging
from .judged import Judged, Known
from .model import Prepared, Row, Verdict
from .preparation.assumptions import is_weak
from .preparation.options import Options
from .preparation.prepare import prepare
from .preparation.reading.preprocess import NotRead, python_flags
from .program import FileRefused, ProgramError
from .report import ReportError
from .rows import load_rows
from .second_look import second_look

#: How often a module is prepared again without what the program refused, or with fewer calls.
MOST_ROUNDS = 16
#: What keeps a module from being judged.
FAILURES = (NotRead, ProgramError, ReportError, OSError)


@dataclass(frozen=True)
class Settings:
    """What is the same for all modules of a call."""

    declared: Declared = field(default_factory=Declared)
    init_twice: bool = False
    seconds: float = SECONDS
    program: Path | None = None
    profile: Profile = Profile.PYTHON_311

    @cached_property
    def rows(self) -> dict[str, Row]:
        """The rows of the Python/C API and of the C library, and those that the author declares."""
        return {**load_rows(), **self.declared.rows}

    def options(self) -> Options:
        """What the preparation knows besides the source."""
        borrowed = frozenset((tag, name) for tag, names in self.declared.borrowed_fields.items() for name in names)
        return Options(self.declared.conventions, borrowed, init_twice=self.init_twice)


def judge_module(
    source: Source, settings: Settings, judge: Judging, calls_as_rows: frozenset[tuple[str, str]] = frozenset()
) -> Judged:
    """Prepares a module and judges it; functions that the program does not take become rows for their callers, and calls
    become rows where less is said of their callers otherwise."""
    options, preparing, judging = replace(settings.options(), calls_as_rows=calls_as_rows), 0.0, 0.0
    prepare_under = partial(prepare, source.path, [*source.flags, *python_flags()], settings.rows)
    refused: dict[str, Verdict] = {}
    for _ in range(MOST_ROUNDS):
        start = time.monotonic()
        prepared = prepare_under(options)
        between = time.monotonic()
        verdicts, again = verdicts_of(prepared, judge, set(refused))
        preparing += between - start
        judging += time.monotonic() - between
        known = Known(calls_as_rows=options.calls_as_rows)
        judged = Judged(prepared, verdicts, {**settings.rows, **prepared.rows}, known=known)
        worse = frozenset() if again else better_as_rows(judged, is_weak)
        if not again and not worse:
            break
        refused |= again
        options = replace(options, calls_as_rows=options.calls_as_rows | worse,
                          refused={**options.refused, **{name: v.reason or "" for name, v in again.items()}})
    start = time.monotonic()
    prepared, verdicts = look_with_cleared(prepared, verdicts, options, prepare_under, judge)
    prepared, verdicts = second_look(prepared, verdicts, options, prepare_under, judge)
    judging += time.monotonic() - start
    return Judged(prepared, {**verdicts, **refused}, {**settings.rows, **prepared.rows},
                  known=known, seconds_preparing=preparing, seconds_judging=judging)


def verdicts_of(prepared: Prepared, judge: Judging, refused: set[str]) -> tuple[dict[str, Verdict], dict[str, Verdict]]:
    """The verdicts on a module by function, and those on functions without which it is prepared again."""
    try:
        verdicts = {v.function: v for v in judge(prepared)}
    except FileRefused as fault:
        name = function_at(prepared, fault.line, fault.column)
        if name is None or name in refused:
            raise
        return {}, {name: Verdict(name, "refused", f"file refused: {fault.reason}")}
    return verdicts, {name: verdict for name, verdict in in_the_way(prepared, verdicts).items() if name not in refused}


def in_the_way(prepared: Prepared, verdicts: Mapping[str, Verdict]) -> dict[str, Verdict]:
    """The functions that the program refuses by a rule of their own, and for which it refuses others that call them."""
    refused = {v.function: v for v in verdicts.values() if v.word == "refused"}
    callers = {f.name: refused.keys() & set(f.calls) for f in prepared.functions
               if f.name in refused and refused[f.name].reason == "N9"}
    called = set().union(*callers.values())
    return {name: v for name, v in refused.items() if name in called and not callers.get(name)}


def function_at(prepared: Prepared, line: int | None, column: int | None) -> str | None:
    """The function at a place of the prepared text."""
    if line is None or column is None:
        return None
    place = prepared.place_of(line, column)
    if place is not None:
        before = [f for f in prepared.functions if f.place.file == place.file and f.place.line <= place.line]
        return max(before, key=lambda f: f.place.line).name if before else None
    printed = [f for f in prepared.functions if f.not_prepared is None and f.printed_line <= line]
    return max(printed, key=lambda f: f.printed_line).name if printed else None


def looked_at(source: Source, settings: Settings, known: Known = Known()) -> Judged | Exception:
    """A module, judged, or what kept it from being; `known` has what is known of it."""
    judge = Judge(settings.seconds, settings.program, settings.profile, dict(known.verdicts))
    try:
        judged = judge_module(source, settings, judge, known.calls_as_rows)
        return replace(judged, known=replace(judged.known, verdicts=judge.known))
    except FAILURES as fault:
        return fault


def looked_at_with(given: tuple[Source, Known], settings: Settings) -> Judged | Exception:
    """The same, for a module with what is known of it."""
    return looked_at(given[0], settings, given[1])


def over_all(
    sources: Sequence[Source], settings: Settings, jobs: int, known: Sequence[Known] = ()
) -> Iterator[Judged | Exception]:
    """The modules in their order, by so many processes; `known` has for each what is known of it."""
    work = partial(looked_at_with, settings=settings)
    given = list(zip(sources, known or [Known()] * len(sources), strict=True))
    if jobs < 2 or len(sources) < 2:
        yield from map(work, given)
        return
    with ProcessPoolExecutor(min(jobs, len(sources))) as pool:
        yield from pool.map(work, given)
