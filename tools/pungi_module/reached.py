"""The functions of a module that calls come to."""

from __future__ import annotations

from collections.abc import Iterable, Mapping, Sequence


def reached(names: Iterable[str], calls: Mapping[str, Sequence[str]]) -> list[str]:
    """The functions, and all that their calls come to, in the order in which they are found."""
    found = list(dict.fromkeys(names))
    seen, left = set(found), list(found)
    while left:
        for name in calls.get(left.pop(), ()):
            if name not in seen:
                seen.add(name)
                found.append(name)
                left.append(name)
    return found
