"""Calls functions of the Python/C API and compares counts before and after with what their rows say.

`calls.tsv` has the calls to try: the names of functions, a tuple of arguments with which they succeed, one with which
they fail (or nothing), and a statement of C before the call (or nothing). Where a row says that a pointer may be NULL,
the call is tried with NULL as well.
"""

from __future__ import annotations

import ast
import json
import subprocess
import sys
import sysconfig
import tempfile
from dataclasses import dataclass, field
from itertools import groupby
from pathlib import Path

from pungi_module.model import Row
from pungi_module.rows import WideRow, load_rows, load_wide_rows

from .thunks import Call, extension

CALLS = Path(__file__).parent / "calls.tsv"
PROBE = Path(__file__).parent / "probe.py"


@dataclass(frozen=True)
class Trial:
    """A call with its arguments."""

    call: Call
    arguments: str
    #: Whether it should succeed or fail, if the table says so.
    outcome: str | None


@dataclass
class Outcome:
    """What calling the functions showed."""

    #: The functions that were called.
    called: set[str] = field(default_factory=set)
    #: A line for each call that does not agree with its row.
    wrong: list[str] = field(default_factory=list)


def run(only: set[str] | None = None) -> Outcome:
    """Calls the functions of the table, or some of them."""
    trials = [trial for trial in read_trials() if only is None or trial.call.function in only]
    outcome = Outcome({trial.call.function for trial in trials})
    calls = list({id(trial.call): trial.call for trial in trials}.values())
    numbers = {id(call): number for number, call in enumerate(calls)}
    with tempfile.TemporaryDirectory(prefix="pungi-rows-") as directory:
        library = build(extension(calls), Path(directory))
        together = groupby(trials, key=lambda trial: trial.call.function)
        wanted = json.dumps([[(numbers[id(t.call)], t.arguments) for t in group] for _, group in together])
        words = [sys.executable, str(PROBE), str(library)]
        done = subprocess.run(words, input=wanted, capture_output=True, text=True, check=True)
    for trial, line in zip(trials, done.stdout.splitlines(), strict=True):
        ended, wrong = line.split("\t", 1)
        if wrong:
            outcome.wrong.append(f"{trial.call.function} {wrong}")
        elif trial.outcome not in (None, ended):
            outcome.wrong.append(f"{trial.call.function} {ended} with {trial.arguments}")
    return outcome


def build(source: str, directory: Path) -> Path:
    """The compiled extension."""
    text = directory / "pungi_rows.c"
    text.write_text(source, encoding="utf-8")
    library = directory / "pungi_rows.so"
    include = sysconfig.get_paths()["include"]
    words = ["gcc", "-w", "-O0", "-shared", "-fPIC", "-I", include, "-I", f"{include}/internal", "-o"]
    done = subprocess.run([*words, str(library), str(text)], capture_output=True, text=True, check=False)
    if done.returncode != 0:
        raise RuntimeError("gcc: " + next(line for line in done.stderr.splitlines() if "error:" in line))
    return library


def read_trials() -> list[Trial]:
    """The calls of the table, and those with NULL in place of what may be NULL."""
    rows: dict[str, Row | WideRow] = {**load_rows(), **load_wide_rows()}
    trials: list[Trial] = []
    for line in CALLS.read_text(encoding="utf-8").splitlines():
        if not line or line.startswith("#"):
            continue
        names, succeeds, fails, before = (line.split("\t") + ["", "", ""])[:4]
        for name in names.split():
            for arguments, outcome in ((succeeds, "succeeded"), (fails, "failed")):
                if arguments:
                    trials += trials_of(name, rows[name], arguments, outcome, before)
    return trials


def trials_of(name: str, row: Row | WideRow, arguments: str, outcome: str, before: str) -> list[Trial]:
    """The call with these arguments, and with NULL in place of each that may be NULL."""
    items = [ast.unparse(item) for item in ast.parse(arguments, mode="eval").body.elts]
    texts = {i: item for i, item in enumerate(items) if i >= len(row.params) or row.params[i] in ("any", "...")}
    call = Call(name, row, before, {i: ast.literal_eval(item.strip()) for i, item in texts.items()})
    shown = f"({', '.join(items)},)" if items else "()"
    trials = [Trial(call, shown, None if row.result in ("int", "long", "any", "void") else outcome)]
    if outcome == "succeeded" and "..." not in row.params:
        for i, word in enumerate(row.params):
            if word in ("object?", "text?") and items[i] != "NULL":
                trials.append(Trial(call, f"({', '.join([*items[:i], 'NULL', *items[i + 1:]])},)", None))
    return trials
