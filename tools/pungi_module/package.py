"""Judges the modules of a call, several at a time, and finds the conventions that they follow."""

from __future__ import annotations

import sys
from collections.abc import Iterator, Sequence

from .compilation import Source
from .convention_file import Convention
from .declaring import with_conventions
from .findings import findings_of
from .judged import Judged
from .judging import Settings, over_all
from .preparation.assumptions import is_weak
from .preparation.reading.preprocess import NotRead
from .results import Report, Status


def judge_package(
    sources: Sequence[Source], settings: Settings, jobs: int
) -> tuple[list[Judged | Exception], list[Convention]]:
    """The modules, judged, in their order, and the conventions that were found."""
    done = list(progress(sources, over_all(sources, settings, jobs)))
    for source, one in zip(sources, done, strict=True):
        for note in one.prepared.notes if isinstance(one, Judged) else ():
            print(f"pungi-module: {source.path}: {note}", file=sys.stderr)
    package = [(source, one) for source, one in zip(sources, done, strict=True) if isinstance(one, Judged)]
    judged, found = with_conventions(package, settings, jobs)
    left = iter(judged)
    return [next(left) if isinstance(one, Judged) else one for one in done], found


def report_of(source: Source, one: Judged | Exception) -> Report:
    """The report of a module."""
    return Report(source.path, findings_of(one, is_weak)) if isinstance(one, Judged) else failure_of(source, one)


def failure_of(source: Source, fault: Exception) -> Report:
    """The report of a module that could not be looked at."""
    if isinstance(fault, OSError):
        return Report(source.path, failure=Status.NOT_READ, reason=f"cannot be read: {fault.strerror}")
    if isinstance(fault, NotRead):
        return Report(source.path, failure=Status.NOT_PARSED, reason=f"not parsed: {fault}")
    return Report(source.path, failure=Status.NOT_JUDGED, reason=f"not judged: {fault}")


def progress(sources: Sequence[Source], done: Iterator[Judged | Exception]) -> Iterator[Judged | Exception]:
    """The modules as they come, with a line on a terminal that says how far it is."""
    shown = len(sources) > 1 and sys.stderr.isatty()
    for place, source in enumerate(sources, 1):
        if shown:
            print(f"\r\x1b[K[{place}/{len(sources)}] {source.path}", end="", file=sys.stderr, flush=True)
        yield next(done)
    if shown:
        print("\r\x1b[K", end="", file=sys.stderr, flush=True)
