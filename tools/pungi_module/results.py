"""What is found of a module, and the exit status of a call."""

from __future__ import annotations

import os
from collections import Counter
from collections.abc import Iterable
from dataclasses import dataclass, field
from enum import Enum, IntEnum

from .findings import Finding, Word


class Status(IntEnum):
    """The exit status of the command."""

    CLEAN = 0
    FAULT = 1
    NOT_JUDGED = 2
    USAGE = 3
    NOT_READ = 4
    NOT_PARSED = 6


class Strictness(Enum):
    """What a doubtful finding counts as."""

    #: As a fault; and a clean function names what it rests on.
    STRICT = "strict"
    #: As a function that is not judged.
    MIDDLE = "middle"
    #: As nothing.
    LENIENT = "lenient"


@dataclass
class Report:
    """What is found of one module; `failure` says why it could not be looked at."""

    source: str
    findings: list[Finding] = field(default_factory=list)
    failure: Status | None = None
    reason: str = ""

    def counts(self) -> Counter[Word]:
        """How many findings of each word there are."""
        return Counter(finding.word for finding in self.findings)


def status_of(reports: Iterable[Report], strictness: Strictness) -> Status:
    """The exit status: a fault first, then a file that could not be looked at, then a function that is not judged."""
    statuses = {report.failure for report in reports if report.failure is not None}
    statuses |= {finding_status(finding.word, strictness) for report in reports for finding in report.findings}
    order = (Status.FAULT, Status.NOT_READ, Status.NOT_PARSED, Status.NOT_JUDGED)
    return next((status for status in order if status in statuses), Status.CLEAN)


def finding_status(word: Word, strictness: Strictness) -> Status:
    """What a finding means for the exit status."""
    if word is Word.FAULT:
        return Status.FAULT
    if word in (Word.DOUBTFUL, Word.CONVENTION):
        doubtful = {Strictness.STRICT: Status.FAULT, Strictness.MIDDLE: Status.NOT_JUDGED}
        return doubtful.get(strictness, Status.CLEAN)
    return Status.CLEAN if word is Word.CLEAN else Status.NOT_JUDGED


def shown_path(path: str) -> str:
    """A path as a person at this place would write it."""
    here = os.path.relpath(path)
    return path if here.startswith("..") else here


class Level(Enum):
    """How much a finding asks for attention, in formats that know three levels."""

    ERROR = 3
    WARNING = 2
    NOTE = 1


def level_of(word: Word, strictness: Strictness) -> Level:
    """The level of a finding."""
    if word is Word.FAULT or (word is Word.DOUBTFUL and strictness is Strictness.STRICT):
        return Level.ERROR
    return Level.WARNING if word is Word.DOUBTFUL and strictness is Strictness.MIDDLE else Level.NOTE
