"""Findings as commands of a GitHub workflow, which shows them beside the changed lines."""

from __future__ import annotations

from collections.abc import Iterator, Sequence

from ..findings import Finding, Word
from ..results import Level, Report, level_of, shown_path
from .shown import Shown

COMMANDS = {Level.ERROR: "error", Level.WARNING: "warning", Level.NOTE: "notice"}


def printed(reports: Sequence[Report], shown: Shown) -> str:
    """One command for each finding that calls for an action."""
    return "".join(f"{line}\n" for report in reports for line in report_lines(report, shown))


def report_lines(report: Report, shown: Shown) -> Iterator[str]:
    """The commands of one module."""
    if report.failure is not None:
        yield f"::error file={property_text(shown_path(report.source))}::{data_text(report.reason)}"
    for finding in report.findings:
        if finding.word is not Word.CLEAN:
            yield command(finding, shown)


def command(finding: Finding, shown: Shown) -> str:
    """The command of one finding."""
    place = finding.place
    where = f"file={property_text(shown_path(place.file))},line={place.line},col={place.column}"
    lines = [finding.message, *(f"line {t.place.line}: {t.words}{count(t.owned)}" for t in finding.lines)]
    lines += [f"rests on {a.name}: {a.detail}" for a in finding.rests_on] if finding.word is Word.DOUBTFUL else []
    lines += ["clean with:", finding.paste] if finding.paste else []
    title = property_text(f"{finding.word.value}: {finding.function}")
    name = COMMANDS[level_of(finding.word, shown.strictness)]
    return f"::{name} {where},title={title}::{data_text(chr(10).join(lines))}"


def count(owned: int | None) -> str:
    """The references that are owned after a line."""
    return "" if owned is None else f": {owned}"


def data_text(text: str) -> str:
    """A message, with what a command can't hold escaped."""
    return text.replace("%", "%25").replace("\r", "%0D").replace("\n", "%0A")


def property_text(text: str) -> str:
    """A property, with what a command can't hold escaped."""
    return data_text(text).replace(":", "%3A").replace(",", "%2C")
