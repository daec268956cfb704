"""Findings in SARIF 2.1.0, the format of static analysis results."""

from __future__ import annotations

import json
from collections.abc import Sequence
from typing import Any

from ..findings import Finding, Word
from ..model import Place
from ..results import Report, level_of, shown_path
from ..run_in_words import RunLine
from .shown import Shown

SCHEMA = "https://json.schemastore.org/sarif-2.1.0.json"
RULES = {
    Word.FAULT: "A run leaks a reference, or gives up one that the function does not own.",
    Word.DOUBTFUL: "So does a run that rests on a weak assumption.",
    Word.CONVENTION: "The function is clean where a convention is declared that it may follow.",
    Word.OPEN: "The function is not judged.",
    Word.NOT_PREPARED: "The function could not be prepared.",
}


def printed(reports: Sequence[Report], shown: Shown) -> str:
    """All reports as one run of the tool."""
    rules = [{"id": rule_id(word), "shortDescription": {"text": text}} for word, text in RULES.items()]
    results = [result(f, shown) for report in reports for f in report.findings if f.word is not Word.CLEAN]
    failures = [failure(report) for report in reports if report.failure is not None]
    invocation = {"executionSuccessful": not failures, "toolExecutionNotifications": failures}
    driver = {"name": "pungi-module", "rules": rules}
    run = {"tool": {"driver": driver}, "results": results, "invocations": [invocation],
           "columnKind": "unicodeCodePoints"}
    return json.dumps({"$schema": SCHEMA, "version": "2.1.0", "runs": [run]}, indent=1) + "\n"


def rule_id(word: Word) -> str:
    """The name of the rule of a word."""
    return word.value.replace(" ", "-")


def failure(report: Report) -> dict[str, Any]:
    """A module that could not be looked at."""
    where = {"physicalLocation": {"artifactLocation": {"uri": uri(report.source)}}}
    return {"level": "error", "message": {"text": report.reason}, "locations": [where]}


def result(finding: Finding, shown: Shown) -> dict[str, Any]:
    """One finding."""
    value: dict[str, Any] = {
        "ruleId": rule_id(finding.word),
        "level": level_of(finding.word, shown.strictness).name.lower(),
        "message": {"text": message(finding)},
        "locations": [{**location(finding.place), "logicalLocations": [logical(finding.function)]}],
    }
    if finding.lines:
        steps = [{"location": {**location(t.place), "message": {"text": words_of(t)}}} for t in finding.lines]
        value["codeFlows"] = [{"threadFlows": [{"locations": steps}]}]
    return value


def message(finding: Finding) -> str:
    """The text of a finding, with what it rests on."""
    weak = [f"{a.name}: {a.detail}" for a in finding.rests_on] if finding.word is Word.DOUBTFUL else []
    rests = [f"Rests on {', '.join(weak)}."] if weak else []
    also = [f"Also seen in {', '.join(finding.also)}."] if finding.also else []
    declared = [f"Clean with:\n{finding.paste}"] if finding.paste else []
    return "\n".join([finding.message, *rests, *also, *declared])


def words_of(line: RunLine) -> str:
    """A line of a run."""
    return line.words if line.owned is None else f"{line.words}: {line.owned}"


def location(place: Place) -> dict[str, Any]:
    """A place in a file."""
    region = {"startLine": place.line, "startColumn": place.column}
    return {"physicalLocation": {"artifactLocation": {"uri": uri(place.file)}, "region": region}}


def logical(function: str) -> dict[str, str]:
    """A function."""
    return {"name": function, "kind": "function"}


def uri(path: str) -> str:
    """A path as a reference: relative where it stands below this place."""
    shown = shown_path(path)
    return ("file://" + shown if shown.startswith("/") else shown).replace(" ", "%20")
