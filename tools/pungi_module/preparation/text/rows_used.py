"""The rows that a prepared text uses: generic ones over effects, and those of functions."""

from __future__ import annotations

from ...model import Row, RowSource
from ..types.kinds import Kind
from .known_names import BUILTIN_ROWS, RESERVED
from .subset import Call, Expr, is_pure

#: At most so many parameters has a row.
PARAMETER_LIMIT = 8

LETTERS = {Kind.OBJECT: "o", Kind.TEXT: "t", Kind.INT: "n", Kind.LONG: "n", Kind.SIZE: "n"}

def is_harmless(row: Row) -> bool:
    """A call of the row makes no reference and takes none over."""
    return row.result != "new" and not row.takes and not row.takes_on_success


WORDS = {"o": "object?", "t": "text?", "n": "long"}

#: The generic rows: what they return. `null` puts effects in order, `choice` has two ways.
GENERIC = {
    "null": "null", "choice": "status", "new": "new", "borrowed": "borrowed", "sure": "borrowed_sure", "text": "text",
    "int": "int", "long": "long", "size": "size",
}

Effect = tuple[Expr, Kind]
"""An expression that is evaluated for what it does, and the kind of its value."""


class RowsUsed:
    """The table of the rows that stand in a text, by the name that is printed."""

    def __init__(self, taken_names: set[str]) -> None:
        self.rows: dict[str, Row] = {}
        #: Of rows that stand for functions, which functions these are.
        self.sources: dict[str, RowSource] = {}
        self._names: dict[tuple[str, Row, RowSource | None], str] = {}
        self._taken = taken_names | RESERVED

    def name(self, wanted: str, row: Row, source: RowSource | None = None) -> str:
        """The printed name of a row that should be called so: another where that name has another row or meaning."""
        key = (wanted, row, source)
        if key not in self._names:
            name = wanted if wanted not in self._taken else "pungi_" + wanted
            base, number = name, 1
            while name in self.rows and (self.rows[name], self.sources.get(name)) != (row, source):
                number += 1
                name = "%s_%d" % (base, number)
            self._names[key] = name
            self.rows[name] = row
            if source is not None:
                self.sources[name] = source
        return self._names[key]

    def generic(self, result: str, effects: list[Effect]) -> Expr:
        """Any value of this sort, after the effects in their order."""
        effects = [effect for effect in effects if not is_pure(effect[0])]
        while len(effects) > PARAMETER_LIMIT:
            first = self.generic("null", effects[:PARAMETER_LIMIT])
            effects = [(first, Kind.OBJECT)] + effects[PARAMETER_LIMIT:]
        letters = "".join(LETTERS[kind] for _, kind in effects)
        wanted = "pungi_%s_%s" % (result, letters) if letters else "pungi_any_" + result
        row = Row(tuple(WORDS[letter] for letter in letters), GENERIC[result])
        return Call(self.name(wanted, row), tuple(expr for expr, _ in effects), is_harmless=result != "new")

    def take(self, value: Expr) -> Expr:
        """A call that takes the reference of its argument over; its value is NULL."""
        return Call(self.name("pungi_take", Row(("object?",), "null", (1,))), (value,))

    def with_value(self, call: Call) -> Call:
        """The same call of a row without a value, as one whose value is NULL."""
        row = self.rows.get(call.name) or BUILTIN_ROWS[call.name]
        valued = Row(row.params, "null", row.takes)
        return Call(self.name(call.name + "_done", valued), call.arguments, place=call.place)
