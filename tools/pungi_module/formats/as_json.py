"""Findings as JSON: an object with a list of modules, each with its findings."""

from __future__ import annotations

import json
from collections.abc import Sequence
from typing import Any

from ..findings import Finding
from ..model import Assumption, Place
from ..results import Report, shown_path
from .shown import Shown


def printed(reports: Sequence[Report], shown: Shown) -> str:
    """All reports as one value."""
    return json.dumps({"modules": [module(report) for report in reports]}, indent=1) + "\n"


def module(report: Report) -> dict[str, Any]:
    """One module."""
    if report.failure is not None:
        return {"source": shown_path(report.source), "failure": report.reason, "status": int(report.failure)}
    counts = {word.value: count for word, count in report.counts().items()}
    return {"source": shown_path(report.source), "counts": counts, "findings": [found(f) for f in report.findings]}


def found(finding: Finding) -> dict[str, Any]:
    """One finding."""
    run = [{**place(t.place), "words": t.words, "owned": t.owned} for t in finding.lines]
    return {
        "word": finding.word.value,
        "function": finding.function,
        **place(finding.place),
        "message": finding.message,
        "cause": finding.cause,
        "run": run,
        "rests_on": [assumption(a) for a in finding.rests_on],
        "convention": finding.paste,
        "also": finding.also,
    }


def assumption(a: Assumption) -> dict[str, Any]:
    """One assumption."""
    return {"name": a.name, "detail": a.detail, **place(a.place)}


def place(p: Place) -> dict[str, Any]:
    """The keys of a place."""
    return {"file": shown_path(p.file), "line": p.line, "column": p.column}
