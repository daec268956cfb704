#!/usr/bin/env python3
"""Compares the rows of tools/pungi_module/rows with CPython.

    check_rows.py [--fetch] [--sources DIRECTORY] [--run]

Rows are compared with CPython's list of reference counts and its manual, where their sources are (`--fetch` gets them
with Debian's package manager), and with its headers. Each difference is explained in row_checks/differences.tsv, or
is printed. `--run` calls the functions and compares counts before and after. The status is 1 where something differs.
"""

from __future__ import annotations

import argparse
import sys
from pathlib import Path

from pungi_module.rows import load_rows, load_wide_rows
from row_checks import headers, manual, reference_counts, running, sources
from row_checks.reference_counts import Difference

EXPLAINED = Path(__file__).parent / "row_checks" / "differences.tsv"


def all_differences(documents: Path | None) -> list[Difference]:
    """Where rows differ from the headers and, where the documents are there, from the list and the manual."""
    rows, wide = load_rows(), load_wide_rows()
    found = headers.differences(rows, wide)
    if documents is not None:
        listed = reference_counts.read_counts(documents / "data" / "refcounts.dat")
        found += reference_counts.differences(rows, wide, listed)
        found += manual.differences(rows, wide, manual.read_manual(documents / "c-api"))
    return found


def read_reasons() -> dict[str, str]:
    """The reason for each difference that is meant."""
    lines = EXPLAINED.read_text(encoding="utf-8").splitlines()
    pairs = [line.split("\t") for line in lines if line and not line.startswith("#")]
    return {key: reason for key, reason in pairs}


def report(found: list[Difference], reasons: dict[str, str], complete: bool) -> list[str]:
    """A line for each difference without a reason and, if everything was compared, for each reason without one."""
    lines = [f"{d.key}: the row has {d.row}, CPython {d.listed}" for d in found if d.key not in reasons]
    if complete:
        lines += [f"{key}: no difference any more" for key in sorted(reasons.keys() - {d.key for d in found})]
    return lines


def main() -> int:
    """Runs the checks that the command line asks for."""
    parser = argparse.ArgumentParser(description=__doc__.splitlines()[0])
    parser.add_argument("--sources", type=Path, default=sources.DIRECTORY, help="where CPython's sources are")
    parser.add_argument("--fetch", action="store_true", help="fetch them there")
    parser.add_argument("--run", action="store_true", help="call the functions as well")
    words = parser.parse_args()
    documents = sources.fetch(words.sources) if words.fetch else sources.documents(words.sources)
    if documents is None:
        print(f"no documents of CPython in {words.sources}: only the headers are compared", file=sys.stderr)
    found = all_differences(documents)
    lines = report(found, read_reasons(), documents is not None)
    if words.run:
        outcome = running.run()
        lines += outcome.wrong
        print(f"{len(outcome.called)} functions called")
    print("\n".join(lines) if lines else f"rows and CPython agree, with {len(found)} differences explained")
    return 1 if lines else 0


if __name__ == "__main__":
    sys.exit(main())
