"""Compares the rows with CPython's own list of reference counts, `Doc/data/refcounts.dat`.

The list has, for each function of the manual, a line for the result and one for each parameter:

    function:type:name of the parameter:effect on the count:comment

The effect on a result is +1 for a new reference, 0 for a borrowed one, and `null` where it is always NULL. The effect
on a parameter is -1 where the call gives its reference up; +1 says that the call keeps one of its own, which is
nothing to the caller. The list itself warns that it does not show where a call takes a reference over.
"""

from __future__ import annotations

from dataclasses import dataclass, field
from pathlib import Path

from pungi_module.model import Row
from pungi_module.rows import WideRow

#: The effect on the result that a word for it stands for. All others are no objects.
RESULTS = {
    "new": "+1", "borrowed": "0", "borrowed_sure": "0", "argument": "0", "argument?": "0", "null": "null",
}  # fmt: skip
#: The words of parameters that hold an object.
OBJECTS = ("object", "object?")
#: The words of parameters through which an object may be written or read.
POINTERS = ("output", "output?", "array", "array?")


@dataclass
class Counts:
    """What the list says of a function."""

    #: The effect on the result, empty where that is no object.
    result: str = ""
    #: Type and effect of each parameter.
    params: list[tuple[str, str]] = field(default_factory=list)


@dataclass(frozen=True, order=True)
class Difference:
    """A place where a row and the list differ."""

    name: str
    #: `result`, `parameters` or the number of a parameter.
    where: str
    row: str
    listed: str

    @property
    def key(self) -> str:
        """The name under which `differences.tsv` explains it."""
        return f"{self.name} {self.where}"


def read_counts(path: Path) -> dict[str, Counts]:
    """The functions of the list."""
    functions: dict[str, Counts] = {}
    for line in path.read_text(encoding="utf-8").splitlines():
        if line.startswith("#") or line.count(":") < 3:
            continue
        name, kind, parameter, effect = line.split(":")[:4]
        counts = functions.setdefault(name, Counts())
        if "..." in (parameter, kind):
            continue
        if parameter:
            counts.params.append((kind.replace(" ", ""), effect.strip()))
        else:
            counts.result = effect.strip() if "*" in kind or effect.strip() == "null" else ""
    return functions


def differences(rows: dict[str, Row], wide: dict[str, WideRow], listed: dict[str, Counts]) -> list[Difference]:
    """Where rows and list differ."""
    found: list[Difference] = []
    for name in sorted(listed.keys()):
        row = rows.get(name) or wide.get(name)
        if row is None:
            found.append(Difference(name, "function", "no row", "listed"))
        else:
            found += differences_of(name, row, listed[name])
    return found


def differences_of(name: str, row: Row | WideRow, counts: Counts) -> list[Difference]:
    """Where the row of a function and the list differ."""
    found: list[Difference] = []
    result = RESULTS.get(row.result, "")
    if result != counts.result:
        found.append(Difference(name, "result", row.result, counts.result or "no object"))
    words = [word for word in row.params if word != "..."]
    if len(words) != len(counts.params):
        return found + [Difference(name, "parameters", str(len(words)), str(len(counts.params)))]
    on_success = row.takes_on_success if isinstance(row, Row) else ()
    for number, (word, (kind, effect)) in enumerate(zip(words, counts.params, strict=True), 1):
        if (word in OBJECTS) != is_object(kind) and word not in POINTERS:
            found.append(Difference(name, str(number), word, kind))
        elif (number in row.takes + on_success) != (effect == "-1"):
            took = "taken over" if number in row.takes + on_success else "not taken over"
            found.append(Difference(name, str(number), took, effect or "no object"))
    return found


def is_object(kind: str) -> bool:
    """Whether a type of the list is a pointer to an object."""
    base = kind.removeprefix("const").removesuffix("*")
    return kind.endswith("*") and not base.endswith("*") and base.startswith("Py") and base.endswith("Object")
