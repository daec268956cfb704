"""A second look at the functions that the program leaves open: with their dead locals set to one value, there is less
to tell apart (preparation/passes/dead_locals.py)."""

from __future__ import annotations

from collections.abc import Callable, Mapping
from dataclasses import replace

from .judge import Judging
from .model import Prepared, Verdict
from .preparation.options import Options
from .program import ProgramError
from .replay.definitions import with_only


def look_with_cleared(
    prepared: Prepared, verdicts: Mapping[str, Verdict], options: Options, prepare: Callable[[Options], Prepared],
    judge: Judging,
) -> tuple[Prepared, dict[str, Verdict]]:
    """The module and its verdicts, where open functions are clean or faulty as they are in that form. One that is faulty
    in it stands in the text so, since its run is one of that form. `prepare` makes the forms."""
    left = frozenset(name for name, verdict in verdicts.items() if verdict.word == "unknown")
    if not left:
        return prepared, dict(verdicts)
    found = verdicts_on(prepare(replace(options, cleared=left)), left, judge)
    faulty = frozenset(name for name, verdict in found.items() if verdict.word == "faulty")
    if faulty:
        prepared = prepare(replace(options, cleared=faulty))
        found |= verdicts_on(prepared, faulty, judge)
    return prepared, {**verdicts, **{name: verdict for name, verdict in found.items() if verdict.word != "unknown"}}


def verdicts_on(prepared: Prepared, names: frozenset[str], judge: Judging) -> dict[str, Verdict]:
    """The verdicts clean, faulty and unknown on some functions of a module; none where the program says nothing."""
    try:
        found = judge(replace(prepared, text=with_only(prepared.text, names)))
    except ProgramError:
        return {}
    return {verdict.function: verdict for verdict in found if verdict.function in names and verdict.word != "refused"}
