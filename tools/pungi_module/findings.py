"""What a person reads of a function: the finding, its place in the source, and what it rests on."""

from __future__ import annotations

from collections.abc import Callable, Iterable, Mapping
from dataclasses import dataclass, field
from enum import Enum

from .judged import Judged
from .model import Assumption, Place, Prepared, PreparedFunction, Run, Verdict
from .reached import reached
from .reasons import cause_of, reason_of
from .run_in_words import RunLine, run_in_words


#: The assumption that a callee, whose name is its detail, does as its verdict says.
CALLEE = "callee as a row"


class Word(str, Enum):
    """What is found of a function."""

    #: A run leaks a reference, or gives up one that is not owned, and rests on no weak assumption.
    FAULT = "fault"
    #: So does a run that rests on a weak assumption.
    DOUBTFUL = "doubtful"
    #: It is clean where a convention is declared that the function may follow.
    CONVENTION = "convention"
    CLEAN = "clean"
    #: It stands in the prepared text, and is not judged.
    OPEN = "open"
    NOT_PREPARED = "not prepared"


@dataclass
class Finding:
    """A finding of one function."""

    word: Word
    function: str
    place: Place
    message: str
    #: The run, line by line.
    lines: list[RunLine] = field(default_factory=list)
    #: What it rests on: of a doubtful one the weak assumptions, else all.
    rests_on: list[Assumption] = field(default_factory=list)
    #: The reason as one word, where it is open.
    cause: str | None = None
    #: The lines that declare the convention.
    paste: str | None = None
    #: The callers in which the same fault is seen.
    also: list[str] = field(default_factory=list)


def findings_of(judged: Judged, is_weak: Callable[[str], bool]) -> list[Finding]:
    """The findings of a module, in the order of its functions; a fault of a callee once, with its callers."""
    found = [finding_of(judged, function, is_weak) for function in judged.prepared.functions]
    return grouped(judged, found)


def finding_of(judged: Judged, function: PreparedFunction, is_weak: Callable[[str], bool]) -> Finding:
    """The finding of one function."""
    verdict = judged.verdicts.get(function.name)
    if function.not_prepared is not None and verdict is None:
        return Finding(Word.NOT_PREPARED, function.name, function.place, function.not_prepared, cause="not prepared")
    if verdict is None:
        return Finding(Word.OPEN, function.name, function.place, "Pungi reports nothing of it", cause="missing")
    if verdict.word == "clean":
        return Finding(Word.CLEAN, function.name, function.place, "clean", rests_on=function.assumptions)
    if verdict.word == "faulty" and verdict.run is not None:
        return fault_of(judged, function, verdict.run, is_weak)
    return Finding(Word.OPEN, function.name, open_place(judged.prepared, function, verdict), reason_of(verdict),
                   cause=cause_of(verdict))


def open_place(prepared: Prepared, function: PreparedFunction, verdict: Verdict) -> Place:
    """The place in the source that a verdict names, or else the function's."""
    if verdict.line is None or verdict.column is None or function.not_prepared is not None:
        return function.place
    return prepared.place_of(verdict.line, verdict.column) or function.place


def fault_of(judged: Judged, function: PreparedFunction, run: Run, is_weak: Callable[[str], bool]) -> Finding:
    """The finding of a faulty function."""
    message, lines, visited = run_in_words(judged.prepared, judged.rows, function, run)
    place = judged.prepared.place_of(run.line, run.column) or function.place
    if visited is not None:
        visited.add((function.place.file, function.place.line))
    met = [a for a in function.assumptions if is_met(a, visited, judged.prepared)]
    weak = [a for a in met if is_weak(a.name) or is_on_unclean(a, judged)]
    paste = judged.conventions.get(function.name)
    word = Word.CONVENTION if paste else Word.DOUBTFUL if weak else Word.FAULT
    return Finding(word, function.name, place, message, lines, weak or function.assumptions, paste=paste)


def is_on_unclean(assumption: Assumption, judged: Judged) -> bool:
    """Whether an assumption is about a callee that is not clean itself."""
    verdict = judged.verdicts.get(assumption.detail)
    return assumption.name == CALLEE and (verdict is None or verdict.word != "clean")


def is_met(assumption: Assumption, lines: set[tuple[str, int]] | None, prepared: Prepared) -> bool:
    """Whether a run that comes to these lines may rest on an assumption. Where nothing of the text stands for its line,
    the line before it says that."""
    return lines is None or (assumption.place.file, prepared.line_before(assumption.place)) in lines


def grouped(judged: Judged, found: Iterable[Finding]) -> list[Finding]:
    """The findings without the faults that a caller has through a callee, which are named at the callee's."""
    faulty = {f.function: f for f in found if f.word in (Word.FAULT, Word.DOUBTFUL, Word.CONVENTION)}
    kept = []
    for finding in found:
        callee = callee_at_fault(finding, judged.prepared.calls, faulty) if finding.function in faulty else None
        if callee is None:
            kept.append(finding)
        else:
            callee.also.append(finding.function)
    return kept


def callee_at_fault(finding: Finding, calls: Mapping[str, list[str]], faulty: Mapping[str, Finding]) -> Finding | None:
    """The faulty callee within which the caller's object came into being, if its own fault is of that object too."""
    born = birth(finding)
    for name in reached([finding.function], calls):
        callee = faulty.get(name)
        if name != finding.function and callee is not None and born is not None and birth(callee) == born:
            return callee
    return None


def birth(finding: Finding) -> tuple[str, int, str] | None:
    """Where a run first has to do with the object that is not level."""
    first = next((t for t in finding.lines if t.owned is not None), None)
    return (first.place.file, first.place.line, first.words) if first else None
