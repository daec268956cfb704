"""The program as judge of prepared modules: a function that stands as it stood, with its convention and over the same
rows, is judged once."""

from __future__ import annotations

import hashlib
import re
from collections.abc import Callable
from dataclasses import dataclass, field
from pathlib import Path

from .configuration import Profile, write_configuration
from .model import OwnConvention, Prepared, Verdict
from .parts import judged_in_parts
from .reached import reached
from .replay.definitions import calls_in, definitions_of, place_at, with_only, words_in

#: What the program says of a prepared module. It may raise `ProgramError` where it says nothing.
Judging = Callable[[Prepared], list[Verdict]]
#: A module is judged as a whole within so many seconds, or else in parts.
SECONDS = 20.0


@dataclass(frozen=True)
class Judge:
    """Runs the program on prepared modules."""

    seconds: float = SECONDS
    program: Path | None = None
    profile: Profile = Profile.PYTHON_311
    #: The verdicts by what the program reads of their functions.
    known: dict[str, Verdict] = field(default_factory=dict, compare=False)

    def __call__(self, prepared: Prepared) -> list[Verdict]:
        """The verdicts on the functions of a prepared module."""
        marks = marks_of(prepared)
        new = [name for name, mark in marks.items() if mark not in self.known]
        if new:
            asked = reached(new, calls_in(prepared.text))
            words = set().union(*(words_in(prepared.text)[name] for name in asked))
            rows = {name: row for name, row in prepared.rows.items() if name in words}
            conventions = {name: one for name, one in prepared.conventions.items() if name in asked}
            configuration = write_configuration(rows, conventions, self.profile)
            found = judged_in_parts(with_only(prepared.text, asked), configuration.text, self.seconds, self.program)
            self.known.update({marks[v.function]: v for v in found if v.function in marks})
            left_out = configuration.left_out.keys() & conventions.keys()
            self.known.update({marks[name]: Verdict(name, "unknown", "conventions") for name in left_out})
        return [self.known[mark] for mark in marks.values() if mark in self.known]


def marks_of(prepared: Prepared) -> dict[str, str]:
    """For each function of a module a mark of what the program reads of it: the declarations, its convention, its place
    and its body, those of the functions that it calls, and the rows that it names."""
    text, rows = prepared.text, prepared.rows
    head = mark(re.sub(r"\s+", " ", with_only(text, ())))
    own: dict[str, str] = {}
    for name, one in definitions_of(text).items():
        named = [(word, rows[word]) for word in words_in(text)[name] if word in rows]
        own[name] = mark(f"{name}\0{place_at(text, one.body)}\0{text[one.body:one.end]}\0{named}")
    calls = calls_in(text)
    conventions = {name: repr(prepared.conventions.get(name, OwnConvention())) for name in own}
    return {name: mark("\0".join([head, conventions[name], *(own[callee] for callee in reached([name], calls))]))
            for name in own}


def mark(text: str) -> str:
    """A mark that no other text has."""
    return hashlib.sha256(text.encode("utf-8", "surrogateescape")).hexdigest()
