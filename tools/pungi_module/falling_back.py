"""Which calls are better rows: where they stay calls, the program says less of their callers."""

from __future__ import annotations

from collections.abc import Callable, Mapping, Sequence

from .findings import Word, finding_of
from .judged import Judged
from .model import Verdict
from .reached import reached
from .replay.definitions import definitions_of

#: A function and one that it calls.
Call = tuple[str, str]


def better_as_rows(judged: Judged, is_weak: Callable[[str], bool]) -> frozenset[Call]:
    """The calls that are better rows: those in functions that are not judged; and those in functions that are faulty and
    call something that is not clean itself, or rest on something weak, where all that they call is judged."""
    verdicts = judged.verdicts
    calls = {function.name: function.kept for function in judged.prepared.functions if function.kept}
    left = {name for name in calls if name not in verdicts or verdicts[name].word in ("unknown", "refused")}
    found = {(name, callee) for name in left for callee in in_the_way(judged, name, calls)}
    for function in judged.prepared.functions:
        name = function.name
        if name in calls.keys() - left and verdicts[name].word == "faulty" and not left & set(reached(calls[name], calls)):
            rests_on_weak = finding_of(judged, function, is_weak).word is Word.DOUBTFUL
            found |= {(name, callee) for callee in doubted(judged, name, calls) or (calls[name] if rests_on_weak else ())}
    return frozenset(found)


def doubted(judged: Judged, name: str, calls: Mapping[str, Sequence[str]]) -> list[str]:
    """The callees of a function that are not clean, or else those that call something that is not."""
    unclean = [callee for callee in calls[name] if not is_clean(judged.verdicts.get(callee))]
    return unclean or [callee for callee in calls[name]
                       if not all(is_clean(judged.verdicts.get(one)) for one in reached([callee], calls))]


def in_the_way(judged: Judged, name: str, calls: Mapping[str, Sequence[str]]) -> list[str]:
    """The callees of a function that are not clean, or else the larger half of them; all, where that was done before."""
    if any(caller == name for caller, _ in judged.known.calls_as_rows):
        return list(calls[name])
    unclean = [callee for callee in calls[name] if not is_clean(judged.verdicts.get(callee))]
    by_size = sorted(calls[name], key=lambda callee: size(judged.prepared.text, callee, calls), reverse=True)
    return unclean or by_size[: (len(by_size) + 1) // 2]


def size(text: str, name: str, calls: Mapping[str, Sequence[str]]) -> int:
    """How much text a function and all that it calls have."""
    definitions = [definitions_of(text)[one] for one in reached([name], calls)]
    return sum(one.end - one.body for one in definitions)


def is_clean(verdict: Verdict | None) -> bool:
    """The function with this verdict is clean."""
    return verdict is not None and verdict.word == "clean"
