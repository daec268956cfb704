#!/usr/bin/env python3
"""Runs pungi-module over the sources that fetch_sources.sh fetches, and prints what comes of them as a table.

    python3 tools/measure.py [FOLDER] [--only WORD,..] [--findings FILE] [--seconds S]

FOLDER is that of fetch_sources.sh, as is the one that is taken where none is named. A source that is not there is left
out, and said.
"""

from __future__ import annotations

import argparse
import sys
import time
from collections import Counter
from dataclasses import dataclass, field
from pathlib import Path

sys.path.insert(0, str(Path(__file__).resolve().parent))

from fetched import FOLDER, packages  # noqa: E402
from pungi_module.compilation import Source  # noqa: E402
from pungi_module.findings import Finding, Word  # noqa: E402
from pungi_module.formats import FORMATS, Shown  # noqa: E402
from pungi_module.judged import Judged  # noqa: E402
from pungi_module.judging import Settings  # noqa: E402
from pungi_module.package import judge_package, report_of  # noqa: E402
from pungi_module.program import find_program  # noqa: E402
from pungi_module.results import Report  # noqa: E402

#: What the columns of the table are.
HEADS = "Module Functions Accepted Clean Plain Rows Fault Doubtful Convention Open Refused Prepare Judge".split()

#: Assumptions about what a function of the module does that another one calls.
ABOUT_CALLEES = frozenset(["callee as a row", "callee with effects as a row", "default row for a function of the file",
                           "output of a function of the file"])


@dataclass
class Row:
    """A line of the table."""

    name: str
    words: Counter[Word] = field(default_factory=Counter)
    open: Counter[str] = field(default_factory=Counter)
    refused: Counter[str] = field(default_factory=Counter)
    plain: int = 0
    #: The functions that rest on an assumption about what they call.
    rows: int = 0
    preparing: float = 0.0
    judging: float = 0.0

    def add(self, judged: Judged, findings: list[Finding]) -> None:
        """Counts a module."""
        self.preparing += judged.seconds_preparing
        self.judging += judged.seconds_judging
        self.rows += sum(any(one.name in ABOUT_CALLEES for one in function.assumptions)
                         for function in judged.prepared.functions)
        for finding in findings:
            self.words[finding.word] += 1
            self.words[Word.FAULT] += len(finding.also)
            self.plain += finding.word is Word.CLEAN and not finding.rests_on
            if finding.word is Word.OPEN:
                rule = (finding.cause or "")[:1] == "N"
                (self.refused if rule else self.open)[finding.cause or ""] += 1

    def merge(self, other: Row) -> None:
        """Counts another line."""
        for mine, others in ((self.words, other.words), (self.open, other.open), (self.refused, other.refused)):
            mine.update(others)
        self.plain += other.plain
        self.rows += other.rows
        self.preparing += other.preparing
        self.judging += other.judging

    def cells(self) -> list[str]:
        """The cells of the line."""
        functions = self.words.total()
        accepted = functions - self.words[Word.NOT_PREPARED] - self.refused.total()
        counts = [functions, accepted, self.words[Word.CLEAN], self.plain, self.rows, self.words[Word.FAULT],
                  self.words[Word.DOUBTFUL], self.words[Word.CONVENTION]]
        causes = [", ".join(f"{cause} {n}" for cause, n in counter.most_common()) or "0"
                  for counter in (self.open, self.refused)]
        return [self.name, *map(str, counts), *causes, f"{self.preparing:.1f}", f"{self.judging:.1f}"]


def measured(name: str, files: list[Source], settings: Settings, printed: list[Report]) -> Row:
    """The line of some files."""
    row = Row(name)
    for source, one in zip(files, judge_package(files, settings, 1)[0], strict=True):
        report = report_of(source, one)
        printed.append(report)
        if isinstance(one, Judged):
            row.add(one, report.findings)
        else:
            print(f"{source.path}: {report.reason}", file=sys.stderr)
    return row


def main() -> int:
    """Prints the table."""
    words = argparse.ArgumentParser(description="Measures pungi-module on released modules.")
    words.add_argument("folder", nargs="?", default=str(FOLDER))
    words.add_argument("--only", default="")
    words.add_argument("--findings", metavar="FILE", help="writes the findings to a file")
    words.add_argument("--seconds", type=float, default=20.0)
    asked = words.parse_args()
    settings = Settings(seconds=asked.seconds, program=find_program())
    print("| " + " | ".join(HEADS) + " |\n|" + "---|" * len(HEADS))
    whole, printed, start = Row("all"), [], time.monotonic()
    for name, files in packages(Path(asked.folder)):
        if asked.only and name not in asked.only.split(","):
            continue
        if not files:
            print(f"measure: {name} is not there", file=sys.stderr)
            continue
        row = measured(name, files, settings, printed)
        whole.merge(row)
        print("| " + " | ".join(row.cells()) + " |", flush=True)
    print("| " + " | ".join(whole.cells()) + " |")
    print(f"measure: {time.monotonic() - start:.0f} s", file=sys.stderr)
    if asked.findings:
        Path(asked.findings).write_text(FORMATS["text"](printed, Shown(assumptions=True)), encoding="utf-8")
    return 0


if __name__ == "__main__":
    sys.exit(main())
