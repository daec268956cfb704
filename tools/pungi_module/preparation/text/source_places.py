"""Places in the source, to the column: the parser gives columns of the preprocessed text."""

from __future__ import annotations

import re

from ...model import Place

#: What the preparation puts before a name.
PREFIXES = ("pungi_call_", "pungi_")


#: The words of C.
WORD = re.compile(r"\w+")


class SourceLines:
    """The lines of the source files."""

    def __init__(self) -> None:
        self._files: dict[str, list[str]] = {}
        self._columns: dict[tuple[str, int], dict[str, list[int]]] = {}

    def line(self, file: str, number: int) -> str:
        """A line of a file; empty where there is none."""
        if file not in self._files:
            try:
                with open(file, encoding="latin-1") as source:
                    self._files[file] = source.read().splitlines()
            except OSError:
                self._files[file] = []
        lines = self._files[file]
        return lines[number - 1] if 0 < number <= len(lines) else ""

    def columns(self, file: str, number: int) -> dict[str, list[int]]:
        """The columns of the words of a line."""
        key = (file, number)
        if key not in self._columns:
            found: dict[str, list[int]] = {}
            for word in WORD.finditer(self.line(file, number)):
                found.setdefault(word.group(), []).append(word.start() + 1)
            self._columns[key] = found
        return self._columns[key]

    def place_of_word(self, place: Place, word: str) -> Place:
        """The place of a word on the line, nearest to where the parser saw it; else the first word of the line."""
        line = self.line(place.file, place.line)
        if not line:
            return place
        columns = self.columns(place.file, place.line)
        for candidate in self.spellings(word):
            if candidate in columns:
                nearest = min(columns[candidate], key=lambda column: abs(column - place.column))
                return Place(place.file, place.line, nearest)
        first = len(line) - len(line.lstrip()) + 1
        return Place(place.file, place.line, place.column if place.column <= len(line) else first)

    @staticmethod
    def spellings(word: str) -> list[str]:
        """The words of the source that a printed word may stand for."""
        found = [word]
        for prefix in PREFIXES:
            if word.startswith(prefix):
                found.append(word[len(prefix):])
        if word in ("Py_NewRef", "Py_XNewRef", "Py_None", "Py_True", "Py_False", "return"):
            found += ["Py_RETURN_NONE", "Py_RETURN_TRUE", "Py_RETURN_FALSE", "Py_RETURN_NOTIMPLEMENTED"]
        return found
