"""Mutants: a source with one change of a count dropped, added or made twice in a function."""

from __future__ import annotations

import random
import re
from collections.abc import Iterator
from dataclasses import dataclass

from pungi_module.lexical import COMMENT, QUOTED

#: Calls that change a count.
COUNT = re.compile(r"\b(Py_X?INCREF|Py_X?DECREF|Py_CLEAR|Py_X?NewRef)\s*\(|\bPy_RETURN_(NONE|TRUE|FALSE)\b")
COMMENT_OR_TEXT = re.compile(f"{COMMENT}|{QUOTED}", re.DOTALL)
STATICS = {"NONE": "Py_None", "TRUE": "Py_True", "FALSE": "Py_False"}

#: What follows a call on the way out after an error.
ERROR = re.compile(r"\breturn\s*(?:NULL|-1)\s*;|\bgoto\s+\w*(?:err|fail|bail)\w*\s*;")

#: A field or element. Where a Py_CLEAR of one is dropped, it keeps the reference that it held, and no count is off.
FIELD = re.compile(r"->|\.|\[")


@dataclass(frozen=True)
class Mutant:
    """A change of a source: what stands from `start` to `end` becomes another text."""

    function: str
    line: int
    start: int
    end: int
    text: str
    what: str

    def applied(self, text: str) -> str:
        """The source with the change."""
        return text[: self.start] + self.text + text[self.end :]


def mutants(text: str, functions: dict[str, int]) -> Iterator[Mutant]:
    """The mutants of functions, which begin at these lines."""
    plain = COMMENT_OR_TEXT.sub(lambda m: re.sub(r"[^\n]", " ", m.group()), text)
    starts = [0, *(m.end() for m in re.finditer("\n", text))]
    for name, line in functions.items():
        body = plain.find("{", starts[line - 1])
        for found in COUNT.finditer(plain, body, closing(plain, body, "{", "}")):
            at = text.count("\n", 0, found.start()) + 1
            if found[2]:
                yield Mutant(name, at, *found.span(), f"return {STATICS[found[2]]}", "return without its count")
                continue
            end = closing(plain, found.end() - 1, "(", ")")
            for what, changed in changes(found[1], text[found.start() : end], text[found.end() : end - 1], plain[end:]):
                yield Mutant(name, at, found.start(), end, changed, what)


def changes(by: str, call: str, argument: str, after: str) -> Iterator[tuple[str, str]]:
    """What becomes of a call, and how that is called."""
    plain = by.replace("_X", "_")
    if plain == "Py_NewRef":
        yield "Py_NewRef dropped", f"((PyObject *)({argument}))"
    elif plain != "Py_CLEAR" or not FIELD.search(argument):
        on_error = plain == "Py_DECREF" and ERROR.search(after[: after.find("}")])
        yield f"{plain} dropped{' on an error path' if on_error else ''}", "((void)0)"
    if plain in ("Py_INCREF", "Py_DECREF"):
        yield f"{plain} twice", f"({call}, {call})"


def closing(text: str, start: int, opens: str, closes: str) -> int:
    """After the bracket that closes the one at a place."""
    depth = 0
    for place in range(start, len(text)):
        depth += (text[place] == opens) - (text[place] == closes)
        if depth == 0:
            return place + 1
    return len(text)


def chosen(groups: dict[tuple[str, str], list], count: int, seed: int) -> list:
    """So many of all groups, from each as many as from the others while they last."""
    chance, found = random.Random(seed), []
    left = [chance.sample(groups[name], len(groups[name])) for name in sorted(groups)]
    while any(left) and len(found) < count:
        for group in left:
            if group and len(found) < count:
                found.append(group.pop())
    return found
