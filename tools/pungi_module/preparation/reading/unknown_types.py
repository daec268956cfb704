"""Type names that no header declares, as where a library's headers are not there: each is taken as a pointer."""

from __future__ import annotations

import re

from ...lexical import MARKER
from ..text.known_names import KEYWORDS

#: How many such names a file may have.
LIMIT = 60

#: A word where a type may stand: before a declared name, in a cast, or alone in parentheses.
DECLARED = re.compile(r"\b([A-Za-z_]\w*)\s*(?:\*+\s*|\s)(?:const\s+)?[A-Za-z_]\w*\s*(?=[;,=)\[(])")
CAST = re.compile(r"\(\s*(?:const\s+)?([A-Za-z_]\w*)\s*\*+\s*\)|sizeof\s*\(\s*([A-Za-z_]\w*)\s*\)")

#: Words that begin no type of a file's own.
OTHER_WORDS = frozenset("return goto else case sizeof typedef do enum volatile register".split())


def source_line(text: str, place: tuple[str, int]) -> str:
    """A line of a file in preprocessed text, with the one before it."""
    file, number, found, before = "", 0, "", ""
    for line in text.split("\n"):
        marker = MARKER.match(line)
        if marker:
            number, file = int(marker.group(1)), marker.group(2)
            continue
        if (file, number) == place:
            found += " " + line
        elif file == place[0] and number == place[1] - 1:
            before = line
        number += 1
    return before + " " + found


def unknown_type(text: str, place: tuple[str, int], known: set[str]) -> str | None:
    """A word that stands for a type at a place that cannot be read, and that is none yet."""
    line = source_line(text, place)
    words = [match.group(1) for match in DECLARED.finditer(line)]
    words += [word for match in CAST.finditer(line) for word in match.groups() if word]
    for word in words:
        if word not in known and word not in KEYWORDS and word not in OTHER_WORDS:
            return word
    return None
