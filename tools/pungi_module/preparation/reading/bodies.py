"""Function bodies in preprocessed text: which file each belongs to, and the text without some of them."""

from __future__ import annotations

import re
from dataclasses import dataclass
from typing import Callable, Iterator

from ...lexical import MARKER, QUOTED

#: A line marker, another directive, a text or character constant, or a brace.
PIECE = re.compile(rf"^\#[^\n]*$|{QUOTED}|[{{}}]", re.M)
MARKED_LINE = re.compile(rf"^{MARKER.pattern}[^\n]*\n", re.M)

#: The initial values of a long table of numbers.
NUMBERS = re.compile(r"=\s*\{[\s\d,{}+\-xXa-fA-FuUlL]{2000,}\}\s*;")


@dataclass(frozen=True)
class Body:
    """A function's body: from its `{` to the end of its `}` in the text, and where the `{` stands in its file."""

    start: int
    end: int
    file: str
    line: int


def follows_parenthesis(text: str, at: int) -> bool:
    """The last character before this one that is no blank is a `)`."""
    at -= 1
    while at >= 0 and text[at].isspace():
        at -= 1
    return at >= 0 and text[at] == ")"


def bodies(text: str) -> Iterator[Body]:
    """The bodies of the text's functions, in order."""
    depth, opened = 0, None
    file, first_line, marker_end = "", 1, 0
    for piece in PIECE.finditer(text):
        word = piece.group()
        if word[0] == "#":
            marker = MARKER.match(word)
            if marker:
                first_line, file, marker_end = int(marker.group(1)), marker.group(2), piece.end() + 1
        elif word == "{":
            if depth == 0 and follows_parenthesis(text, piece.start()):
                opened = (piece.start(), file, first_line + text.count("\n", marker_end, piece.start()))
            depth += 1
        elif word == "}":
            depth -= 1
            if depth == 0 and opened:
                yield Body(opened[0], piece.end(), opened[1], opened[2])
                opened = None


def without_bodies(text: str, dropped: Callable[[Body], bool]) -> str:
    """The text in which a `;` stands for each body that is dropped; its lines and line markers stay."""
    out, at = [], 0
    for body in list(bodies(text)):
        if not dropped(body):
            continue
        inside = text[body.start:body.end]
        kept = "\n".join(line if line.startswith("# ") else "" for line in inside.split("\n"))
        out += [text[at:body.start], ";", kept]
        at = body.end
    return "".join(out) + text[at:]


def without_numbers(text: str) -> str:
    """The text in which `{0}` stands for each long table of numbers; its lines stay."""
    return NUMBERS.sub(lambda found: "= {0}" + "\n" * found.group().count("\n") + ";", text)


def include_lines(text: str, main: str, own: Callable[[str], bool]) -> dict[str, int]:
    """For each other file of the module, the line of the main file that includes it."""
    found: dict[str, int] = {}
    line, current, last_end = 1, "", 0
    for marker in MARKED_LINE.finditer(text):
        if current == main:
            line += text.count("\n", last_end, marker.start())
        current, last_end = marker.group(2), marker.end()
        if current == main:
            line = int(marker.group(1))
        elif own(current):
            found.setdefault(current, max(line, 1))
    return found
