"""Functions that the program leaves open with their dead locals cleared too, looked at again in forms of which less is
kept.

Each run of a function is one of its looser form too (preparation/passes/loosened.py), so that the function is clean
where that form is. A fault of a looser form may be one of a run that the function does not have: it is not reported.
"""

from __future__ import annotations

from collections.abc import Callable, Mapping
from dataclasses import replace

from .clearing import verdicts_on
from .judge import Judging
from .model import Prepared, Verdict
from .preparation.options import Options


def second_look(
    prepared: Prepared, verdicts: Mapping[str, Verdict], options: Options, prepare: Callable[[Options], Prepared],
    judge: Judging,
) -> tuple[Prepared, dict[str, Verdict]]:
    """The module and its verdicts, where open functions are clean if a looser form of theirs is: first one in which
    parts without objects are left at any time, then one without numbers besides. `prepare` makes such forms."""
    found, functions = dict(verdicts), list(prepared.functions)
    for without_numbers in (False, True):
        left = frozenset(name for name, verdict in found.items() if verdict.word == "unknown")
        if not left:
            break
        numberless = left if without_numbers else frozenset()
        loose = prepare(replace(options, cleared=left, loosened=left, numberless=numberless))
        clean = {name: verdict for name, verdict in verdicts_on(loose, left, judge).items() if verdict.word == "clean"}
        found |= clean
        loosened = {function.name: function for function in loose.functions if function.name in clean}
        functions = [loosened.get(function.name, function) for function in functions]
    return replace(prepared, functions=functions), found
