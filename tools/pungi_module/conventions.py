"""Conventions of a package, found by trying which of them make faulty functions clean.

A function that hands out a borrowed reference, or takes one over, is no fault where its callers know. Each faulty
function is tried with one such promise of its own, then with two and with three; each function that is known by a row
alone, and that a faulty function calls, with as many of its row. A promise of a row is kept where it makes
some function clean and none that was clean anything else.
"""

from __future__ import annotations

from collections.abc import Callable, Collection, Iterable, Iterator, Mapping, Sequence
from concurrent.futures import ThreadPoolExecutor
from dataclasses import dataclass
from itertools import combinations
from typing import TypeVar

from .convention_file import Convention
from .function_text import find_functions
from .judge import Judging
from .model import Prepared
from .program import ProgramError
from .rows import load_rows, load_wide_rows
from .trials import Trial, clean_trials, rows_by_function
from .variant import objects_of, source_of, variant

ROUNDS = 2
#: At most so many promises are tried together.
MOST_TOGETHER = 3
Found = TypeVar("Found")


@dataclass(frozen=True)
class Search:
    """What is known while conventions are looked for, and how many modules are looked at side by side."""

    judge: Judging
    known: Mapping[str, Convention]
    jobs: int = 1

    def over(self, package: Sequence[Prepared], look: Callable[[Prepared], Found]) -> list[Found]:
        """What is found in each module. The program works meanwhile, so that threads are enough."""
        with ThreadPoolExecutor(self.jobs) as pool:
            return list(pool.map(look, package))

    def words(self, prepared: Prepared) -> dict[str, str]:
        """What the program says of the functions of a module under what is known."""
        try:
            return {verdict.function: verdict.word for verdict in self.judge(variant(prepared, self.known))}
        except ProgramError:
            return {}

    def clean(self, prepared: Prepared, trials: Iterable[Trial]) -> set[Trial]:
        """The trials in which the function is clean under what is known."""
        return clean_trials(variant(prepared, self.known), list(trials), self.judge)


def find_conventions(
    package: Sequence[Prepared],
    judge: Judging,
    declared: Mapping[str, Convention] | None = None,
    rounds: int = ROUNDS,
    jobs: int = 1,
) -> list[Convention]:
    """The conventions that make faulty functions of a package clean, besides those that are declared.

    `declared` has those under which the texts have still to be judged; those that the preparation knew do not belong to
    it.
    """
    declared = declared or {}
    found: dict[str, Convention] = {}
    for _ in range(rounds):
        before = len(found)
        for look in (own_promises, promises_of_calls):
            found |= look(package, Search(judge, {**found, **declared}, jobs))
        if len(found) == before:
            break
    return [found[name] for name in sorted(found)]


def own_promises(package: Sequence[Prepared], search: Search) -> dict[str, Convention]:
    """The promises of their own that make faulty functions clean."""
    found: dict[str, Convention] = {}
    for one in search.over(package, lambda prepared: own_promises_in(prepared, search)):
        found |= one
    return found


def own_promises_in(prepared: Prepared, search: Search) -> dict[str, Convention]:
    """The promises of their own that make faulty functions of a module clean."""
    functions, found = find_functions(prepared.text), {}
    left = [functions[name] for name, word in search.words(prepared).items()
            if word == "faulty" and name in functions and name not in search.known]
    for together in range(1, MOST_TOGETHER + 1):
        trials = []
        for function in left:
            objects = list(objects_of(prepared, function))
            promised = promises(function.name, function.returns_object, objects, together)
            trials += [Trial(function.name, promise) for promise in promised]
        clean = search.clean(prepared, trials)
        for trial in trials:
            if trial in clean:
                found.setdefault(trial.function, trial.promise)
        left = [function for function in left if function.name not in found]
    return found


def promises_of_calls(package: Sequence[Prepared], search: Search) -> dict[str, Convention]:
    """The promises of functions known by rows alone that make functions of a package clean."""
    helped: dict[Convention, set[tuple[str, str]]] = {}
    for prepared, trials in zip(package, search.over(package, lambda one: helpful_in(one, search)), strict=True):
        for trial in trials:
            helped.setdefault(trial.promise, set()).add((prepared.source, trial.function))
    broken = set().union(*search.over(package, lambda one: broken_in(one, helped, search)))
    found: dict[str, Convention] = {}
    done: set[tuple[str, str]] = set()
    for promise in sorted(helped.keys() - broken, key=order):
        if promise.name not in found and helped[promise] - done:
            found[promise.name] = promise
            done |= helped[promise]
    return found


def order(promise: Convention) -> tuple[str, int, bool, tuple[int, ...]]:
    """Promises by their functions, and those of one function as they are tried."""
    return promise.name, len(promise.takes) + promise.returns_borrowed, not promise.returns_borrowed, promise.takes


def helpful_in(prepared: Prepared, search: Search) -> list[Trial]:
    """The promises of functions known by rows alone that make faulty functions of a module clean."""
    described = load_rows().keys() | load_wide_rows().keys() | search.known.keys()
    functions, found = find_functions(prepared.text), []
    left = [name for name, word in search.words(prepared).items() if word == "faulty" and name in functions]
    for together in range(1, MOST_TOGETHER + 1):
        trials = []
        for name in left:
            rows = rows_by_function(prepared, functions[name].words)
            for callee in sorted(rows.keys() - described):
                promised = promises_of_rows(callee, prepared, rows[callee], together)
                trials += [Trial(name, promise) for promise in promised]
        clean = search.clean(prepared, trials)
        found += [trial for trial in trials if trial in clean]
        left = [name for name in left if all(name != trial.function for trial in found)]
    return found


def broken_in(prepared: Prepared, promised: Collection[Convention], search: Search) -> set[Convention]:
    """The promises of functions known by rows alone that make a clean function of a module anything else."""
    rows = rows_by_function(prepared, frozenset(prepared.rows))
    asked = [promise for promise in promised if promise.name in rows]
    if not asked:
        return set()
    functions = find_functions(prepared.text)
    clean = [name for name, word in search.words(prepared).items() if word == "clean" and name in functions]
    trials = [Trial(name, promise) for promise in asked for name in clean
              if functions[name].words & set(rows[promise.name])]
    kept = search.clean(prepared, trials)
    return {trial.promise for trial in trials if trial not in kept}


def promises(name: str, returns_object: bool, objects: Sequence[int], together: int) -> Iterator[Convention]:
    """The promises of a function to try: a borrowed result, and parameters that are taken over, so many together."""
    single = [Convention(name, "borrowed")] if returns_object else []
    single += [Convention(name, takes=(number,)) for number in objects]
    for some in combinations(single, together):
        returns = "borrowed" if any(one.returns == "borrowed" for one in some) else "new"
        yield Convention(name, returns, tuple(number for one in some for number in one.takes))


def promises_of_rows(function: str, prepared: Prepared, names: Sequence[str], together: int) -> Iterator[Convention]:
    """The promises to try of a function that is known by these rows."""
    objects: set[int] = set()
    for name in names:
        row = prepared.rows[name]
        taken = row.takes + row.takes_on_success
        for i, (word, number) in enumerate(zip(row.params, source_of(prepared, name).parameters), 1):
            if number and word in ("object", "object?") and i not in taken:
                objects.add(number)
    returns_object = any(prepared.rows[name].result == "new" for name in names)
    return promises(function, returns_object, sorted(objects), together)
