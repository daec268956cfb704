"""Calls of the API that a wide row describes: outputs, further arguments, and values that hold no object."""

from __future__ import annotations

from collections.abc import Mapping
from functools import cache

from pycparser import c_ast

from ...rows import Output as Left
from ...rows import WideRow, Written, load_wide_rows
from ..translation.translation import Translation
from ..translation.values import Value
from ..types.c_types import INT, LONG, OBJECT, OBJECTS, OTHER, SIZE, TEXT, VOID, CType
from .default_calls import Signature, default_call
from .tables import TEXT_MACROS, Output, WhenSet

#: What stands in an output after a call, by the word of the row.
OUTPUTS = {
    Left.NEW: Output.NEW, Left.NEW_OR_NULL: Output.NEW, Left.BORROWED: Output.SURE, Left.ANY: Output.ANY,
    Left.KEPT: Output.KEPT, Left.REPLACED: Output.REPLACED, Left.BUFFER: Output.NEW,
}

#: What an object result is.
OWNERSHIP = {"borrowed": "borrowed", "borrowed_sure": "sure", "array": "sure", "null": "null"}

#: Results that say more than their type.
WORDS = ("status", "truth", "size")

#: The type of a value, where there is no prototype that says it.
TYPES: dict[str, CType] = {
    "new": OBJECT, "borrowed": OBJECT, "borrowed_sure": OBJECT, "null": OBJECT, "array": OBJECTS, "status": INT,
    "truth": INT, "int": INT, "converted": INT, "long": LONG, "size": SIZE, "text": TEXT, "void": VOID, "any": OTHER,
}


@cache
def wide_rows() -> dict[str, WideRow]:
    """The rows, without those of calls that need more than a call in the text: what makes or ends an object."""
    return {name: row for name, row in load_wide_rows().items() if row.result in TYPES and not row.gives + row.ends}


def outputs_left(said: Mapping[int, Left]) -> dict[int, Output]:
    """What stands in the outputs after a call, by the argument's number from 0."""
    return {number - 1: OUTPUTS[left] for number, left in said.items()}


def when_set(row: WideRow) -> WhenSet | None:
    """How the value of a call says which outputs are set."""
    if row.result == "void" or row.written is None:
        return None
    if row.written == Written.NULL_UNLESS_FOUND:
        return WhenSet.TRUTH
    if row.written == Written.NULL_ON_FAILURE:
        if Left.REPLACED in row.outputs.values():
            return WhenSet.RESIZED
        return WhenSet.SENT if row.result == "truth" else WhenSet.CLEARED
    if row.written == Written.ALWAYS:
        return None
    return {"status": WhenSet.STATUS, "converted": WhenSet.CONVERTER}.get(row.result)


def wide_call(t: Translation, node: c_ast.FuncCall, name: str, row: WideRow, given: list[c_ast.Node]) -> Value:
    """The call by its row."""
    declared = t.module.signature(name)
    of_row = TEXT if name in TEXT_MACROS else TYPES[row.result]
    result = declared.result if declared is not None else of_row
    signature = Signature(name, result, OWNERSHIP.get(row.result, "new"), row.takes, when_set(row),
                          outputs_left(row.outputs), row.result if row.result in WORDS else None)
    return default_call(t, node, signature, given)
