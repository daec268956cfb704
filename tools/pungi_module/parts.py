"""Judges a text in parts where the whole takes too long or is too large."""

from __future__ import annotations

from collections.abc import Sequence
from pathlib import Path

from .model import Verdict
from .program import FileRefused, ProgramError, TimeLimit, judge
from .reached import reached
from .replay.definitions import calls_in, definitions_of, with_only

#: Into so many parts a text is divided at a time.
MOST_PARTS = 8
#: Reasons for which the program refuses a whole file that a part of it need not have.
OF_SIZE = ("over", "too many tokens", "too many functions")


def judged_in_parts(text: str, configuration: str, seconds: float, program: Path | None) -> list[Verdict]:
    """The verdicts on all functions of a text; those that alone take too long are unknown."""
    try:
        return judge(text, configuration, seconds, program)
    except FileRefused as fault:
        if not fault.reason.startswith(OF_SIZE):
            raise
    except TimeLimit:
        pass
    return parts(text, configuration, seconds, program, list(definitions_of(text)))


def parts(
    text: str, configuration: str, seconds: float, program: Path | None, names: Sequence[str]
) -> list[Verdict]:
    """The verdicts on these functions, each part of them on its own. What takes long is in few of many parts, so that
    little time is lost on them."""
    if len(names) < 2:
        return [Verdict(name, "unknown", "time") for name in names]
    size, found = -(-len(names) // MOST_PARTS), []
    for at in range(0, len(names), size):
        part = names[at : at + size]
        try:
            verdicts = judge(with_only(text, reached(part, calls_in(text))), configuration, seconds, program)
            found += [verdict for verdict in verdicts if verdict.function in part]
        except TimeLimit:
            found += parts(text, configuration, seconds, program, part)
        except ProgramError:
            found += [Verdict(name, "unknown", "memory") for name in part]
    return found
