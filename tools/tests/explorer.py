#!/usr/bin/env python3
"""Looks for unbalanced runs of the functions of a prepared text by trying the choices of their calls.

It takes the words of the program `pungi` and prints its report, so that tests can run without the program
(`PUNGI=tools/tests/explorer.py`). It proves nothing: `clean` says that no unbalanced run was among those it tried.
"""

from __future__ import annotations

import random
import re
import sys
import tomllib
from collections import Counter
from collections.abc import Iterator
from pathlib import Path

sys.path.insert(0, str(Path(__file__).resolve().parent.parent))

from pycparser import c_ast  # noqa: E402

from pungi_module.model import OwnConvention, Row, Run  # noqa: E402
from pungi_module.replay.account import Object  # noqa: E402
from pungi_module.replay.definitions import definitions_of, parsed, place_at  # noqa: E402
from pungi_module.replay.machine import COUNTS, Machine  # noqa: E402
from pungi_module.replay.statements import Statements  # noqa: E402
from pungi_module.replay.values import STATICS, TEXT, NotReplayed, Return  # noqa: E402
from pungi_module.rows import load_rows  # noqa: E402

#: So many runs of a function are tried in order, and so many others at random; each makes at most so many choices and
#: steps.
IN_ORDER, AT_RANDOM, MOST_CHOICES, MOST_STEPS = 150, 200, 60, 1500
NUMBERS = {"status": [0, -1], "truth": [1, 0, -1], "size": [1, 0, -1, 2], "int": [0, 1, -1, 2], "long": [0, 1, -1, 2]}
FIELD = re.compile(r"(struct \w+ \*|PyObject \*|PyTypeObject \*|char \*|int |long |Py_ssize_t )(\w+);")


class Exploring(Machine):
    """A run whose choices follow a plan, with the accounts of all objects."""

    def __init__(self, text: str, rows: dict[str, Row], plan: list[int], kinds: dict[str, str], first: int) -> None:
        super().__init__(text, rows, Run(0, 0, -1, 0, 0, 0, (), ()))
        self.plan, self.kinds, self.first, self.objects = plan, kinds, first, first
        self.ways: list[int] = []
        self.used: list[tuple[tuple[int, int], object]] = []
        self.change: Counter[int] = Counter()
        self.handed: Counter[int] = Counter()
        self.at_entry: dict[object, object] = {}

    def choose(self, options: list[object]) -> object:
        """The next choice of the plan; the first option where the plan has none."""
        if len(self.ways) == MOST_CHOICES:
            raise NotReplayed("too many choices")
        place = len(self.ways)
        self.ways.append(len(options))
        return options[self.plan[place] % len(options) if place < len(self.plan) else 0]

    def other(self) -> Object:
        """An object that was not there before."""
        self.objects += 1
        return Object(self.objects - 1)

    def options(self, word: str) -> list[object]:
        """What a call with such a result, or a slot of such a kind, may give."""
        if word in ("new", "borrowed", "object"):
            return [None, 0]
        return [TEXT, 0] if word == "text" else [None] if word == "borrowed_sure" else list(NUMBERS[word])

    def taken(self, at: tuple[int, int], word: str) -> object:
        """A choice that is printed."""
        chosen = self.choose(self.options(word))
        value = self.other() if chosen is None else chosen
        self.used.append((at, value))
        return value

    def slot(self, key: object, name: str, places: set[tuple[int, int]]) -> object:
        if key not in self.slots:
            word = self.kinds.get(key if isinstance(key, str) else key[1], "object")
            self.slots[key] = self.at_entry[key] = self.taken(max(places), word)
        return self.slots[key]

    def store(self, key: object, name: str, places: set[tuple[int, int]], value: object) -> None:
        self.slot(key, name, places)
        self.slots[key] = value

    def call(self, name: str, at: tuple[int, int], arguments: list[object]) -> object:
        if name in COUNTS:
            if isinstance(arguments[0], Object):
                self.change[arguments[0].number] += COUNTS[name]
            elif "X" not in name:
                raise NotReplayed("a run that stops")
            return arguments[0]
        row = self.rows.get(name)
        if row is None:
            raise NotReplayed(f"no row of {name}")
        if any(word in ("object", "text") and value == 0 for word, value in zip(row.params, arguments)):
            raise NotReplayed("a run that stops")
        result = 0 if row.result in ("void", "null") else self.taken(at, row.result)
        succeeded = (row.result == "new" and result != 0) or (row.result == "status" and result == 0)
        for number in row.takes + (row.takes_on_success if succeeded else ()):
            if number <= len(arguments) and isinstance(arguments[number - 1], Object):
                self.handed[arguments[number - 1].number] += 1
        if row.result == "new" and isinstance(result, Object):
            self.change[result.number] += 1
        return result

    def uneven(self, returned: object, given: list[object], immortal: int) -> tuple[int, int, int] | None:
        """The lowest object that is counted and not level, with its change and escapes, where these values are returned
        to the caller and taken over from it."""
        for number in range(immortal, self.objects):
            it = Object(number)
            escaped = self.handed[number] + (returned == it) + sum(held == it for held in self.slots.values())
            escaped -= sum(held == it for held in self.at_entry.values()) + given.count(it)
            if self.change[number] != escaped:
                return number, self.change[number], escaped
        return None


class Following(Statements):
    """Statements that remember the place of the return."""

    def run_Return(self, node: c_ast.Return) -> None:
        self.machine.returned_at = (node.coord.line, node.coord.column)
        super().run_Return(node)

    def run(self, node: c_ast.Node | None) -> None:
        if self.machine.steps > MOST_STEPS:
            raise NotReplayed("too long")
        super().run(node)


def kinds_of(text: str) -> dict[str, str]:
    """The kinds of fields and globals by their names."""
    words = {"char *": "text", "int ": "int", "long ": "long", "Py_ssize_t ": "size"}
    return {name: words.get(kind, "object") for kind, name in FIELD.findall(text.split("\n")[0])}


def entries(tree: c_ast.FuncDef, machine: Exploring) -> dict[str, object]:
    """The arguments of a run."""
    params = tree.decl.type.args.params if tree.decl.type.args else []
    frame: dict[str, object] = {}
    for param in params:
        if isinstance(param, c_ast.Decl) and param.name:
            pointer, words = isinstance(param.type, c_ast.PtrDecl), " ".join(names_of(param.type))
            word = "text" if pointer and words == "char" else "object" if pointer else "long"
            chosen = machine.options(word)[0] if pointer else machine.choose(machine.options(word))
            frame[param.name] = machine.other() if chosen is None else chosen
    return frame


def names_of(node: c_ast.Node) -> list[str]:
    """The words of a type."""
    while not isinstance(node, c_ast.IdentifierType):
        if isinstance(node, c_ast.Struct):
            return [node.name]
        node = node.type
    return node.names


def printed(value: object) -> str:
    """A value as the report has it."""
    if isinstance(value, Object):
        return f"object {value.number}"
    return "text" if value == TEXT else "null" if value == 0 else f"int {value}"


def explored(
    text: str, name: str, rows: dict[str, Row], convention: OwnConvention = OwnConvention(), immortal: int = 0
) -> Iterator[str]:
    """The lines of the report on one function with this convention, where so many static objects are not counted."""
    tree, kinds = parsed(text, definitions_of(text)[name]), kinds_of(text)
    first = len(STATICS) + text.count("extern PyTypeObject")
    plans = Plans()
    for plan in plans:
        machine = plans.last = Exploring(text, rows, plan, kinds, first)
        machine.returned_at = place_at(text, definitions_of(text)[name].end - 1)
        try:
            frame = entries(tree, machine)
            arguments, returned = list(frame.values()), 0
            try:
                Following(machine, frame).run(tree.body)
            except Return as result:
                returned = result.value
            owned = 0 if convention.returns_borrowed else returned
            found = machine.uneven(owned, [arguments[n - 1] for n in convention.takes], immortal)
        except NotReplayed:
            found = None
        if found is not None:
            line, column = machine.returned_at
            yield f"faulty {name} {line}:{column} object {found[0]} change {found[1]} escaped {found[2]}"
            yield f"  objects {machine.objects}"
            yield from (f"  argument {printed(a)}" for a in arguments)
            yield from (f"  {at[0]}:{at[1]} {printed(value)}" for at, value in machine.used)
            return
    yield f"clean {name}"


class Plans:
    """The plans of a function's runs: in order, and then at random where there are more."""

    def __init__(self) -> None:
        self.last: Exploring | None = None

    def __iter__(self) -> Iterator[list[int]]:
        plan: list[int] | None = []
        for _ in range(IN_ORDER):
            yield plan
            plan = next_plan(self.last)
            if plan is None:
                return
        chance = random.Random(7)
        for _ in range(AT_RANDOM):
            yield [chance.choice((0, 0, 1)) for _ in range(MOST_CHOICES)]


def next_plan(machine: Exploring) -> list[int] | None:
    """The plan after the one of a run, or none."""
    chosen = [machine.plan[i] if i < len(machine.plan) else 0 for i in range(len(machine.ways))]
    while chosen and chosen[-1] + 1 >= machine.ways[len(chosen) - 1]:
        chosen.pop()
    return chosen[:-1] + [chosen[-1] + 1] if chosen else None


def main() -> int:
    """Prints the report."""
    text = Path(sys.argv[-1]).read_text(encoding="utf-8")
    rows, named = dict(load_rows()), {}
    if "--config" in sys.argv:
        named = tomllib.loads(Path(sys.argv[sys.argv.index("--config") + 1]).read_text(encoding="utf-8"))
    for name, table in named.get("function", {}).items():
        rows[name] = Row(tuple(table["params"]), table["result"], tuple(table.get("takes", ())),
                         tuple(table.get("takes_on_success", ())))
    conventions = {name: OwnConvention(table.get("returns") == "borrowed", tuple(table.get("takes", ())))
                   for name, table in named.get("convention", {}).items()}
    immortal = 3 if named.get("profile") == "3.12" else 0
    words = set()
    for name in definitions_of(text):
        lines = list(explored(text, name, rows, conventions.get(name, OwnConvention()), immortal))
        words.add(lines[0].split(" ")[0])
        print("\n".join(lines))
    return 1 if "faulty" in words else 2 if words - {"clean"} else 0


if __name__ == "__main__":
    sys.exit(main())
