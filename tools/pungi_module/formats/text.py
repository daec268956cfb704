"""Findings as a person reads them in a terminal."""

from __future__ import annotations

from collections.abc import Iterator, Sequence

from ..findings import Finding, Word
from ..model import Place
from ..results import Report, Strictness, shown_path
from ..run_in_words import RunLine, source_line
from .shown import Shown

COLOURS = {Word.FAULT: 31, Word.DOUBTFUL: 33, Word.CONVENTION: 33, Word.CLEAN: 32, Word.OPEN: 36, Word.NOT_PREPARED: 36}
#: So many bytes of a source line stand beside a line of a run.
WIDTH = 90


def printed(reports: Sequence[Report], shown: Shown) -> str:
    """All reports, and a line for each module that counts its findings."""
    return "".join(f"{line}\n" for report in reports for line in report_lines(report, shown))


def report_lines(report: Report, shown: Shown) -> Iterator[str]:
    """The lines of one module."""
    if report.failure is not None:
        yield f"{shown_path(report.source)}: {report.reason}"
        return
    for finding in report.findings:
        if finding.word is not Word.CLEAN or shown.clean or shown.assumptions and finding.rests_on:
            yield from finding_lines(finding, shown)
    counts = report.counts()
    counted = ", ".join(f"{counts[word]} {word.value}" for word in Word if counts[word])
    yield f"{shown_path(report.source)}: {counted or 'no functions'}"


def finding_lines(finding: Finding, shown: Shown) -> Iterator[str]:
    """The lines of one finding."""
    yield f"{at(finding.place)}: {coloured(finding.word, shown)}: {message(finding, shown)}"
    if finding.word in (Word.FAULT, Word.DOUBTFUL, Word.CONVENTION):
        yield from caret_lines(finding.place)
        for line in finding.lines:
            yield f"        {run_line(line, finding.place)}"
    if finding.also:
        yield f"    also seen in {', '.join(finding.also)}"
    if finding.word is Word.DOUBTFUL:
        yield from (f"    rests on {a.name}: {a.detail} (line {a.place.line})" for a in finding.rests_on)
    if finding.paste:
        yield "    it is clean with these lines in the file of --assume:"
        yield from (f"        {line}" for line in finding.paste.rstrip("\n").split("\n"))
    if shown.assumptions and finding.word is not Word.DOUBTFUL:
        yield from (f"    {finding.function}:{a.place.line}: {a.name}: {a.detail}" for a in finding.rests_on)


def message(finding: Finding, shown: Shown) -> str:
    """What follows the word of a finding."""
    if finding.word is not Word.CLEAN:
        named = finding.message.startswith(finding.function)
        return finding.message if named else f"{finding.function}: {finding.message}"
    if not finding.rests_on:
        return finding.function
    if shown.strictness is Strictness.STRICT:
        return f"{finding.function}, if {', '.join(sorted({a.name for a in finding.rests_on}))}"
    count = len(finding.rests_on)
    return f"{finding.function} ({count} assumption{'' if count == 1 else 's'})"


def coloured(word: Word, shown: Shown) -> str:
    """The word of a finding, in its colour where colours are asked for."""
    return f"\x1b[1;{COLOURS[word]}m{word.value}\x1b[0m" if shown.colours else word.value


def at(place: Place) -> str:
    """A place as compilers write it."""
    return f"{shown_path(place.file)}:{place.line}:{place.column}"


def caret_lines(place: Place) -> Iterator[str]:
    """The line of the source, and a caret below the place."""
    line = source_line(place)
    if line:
        yield f"    {line}"
        before = "".join(c if c == "\t" else " " for c in line[: place.column - 1])
        yield f"    {before}^"


def run_line(line: RunLine, beside: Place) -> str:
    """A line of a run, with its count and its source."""
    where = f"line {line.place.line}" if line.place.file == beside.file else at(line.place)
    count = "" if line.owned is None else f": {line.owned}"
    words = f"{where}: {line.words}{count}"
    return f"{words:<58} | {source_line(line.place).strip()[:WIDTH]}".rstrip(" |")
