"""A prepared module under conventions: its functions have, and its rows say, what is declared of them."""

from __future__ import annotations

from collections.abc import Mapping
from dataclasses import replace

from .convention_file import Convention
from .function_text import FunctionText, find_functions
from .model import OwnConvention, Prepared, Row, RowSource


def with_rows(prepared: Prepared, conventions: Mapping[str, Convention]) -> Prepared:
    """The module where the rows of calls say their conventions."""
    rows: dict[str, Row] = {}
    for name, row in prepared.rows.items():
        source = source_of(prepared, name)
        convention = conventions.get(source.function)
        rows[name] = row if convention is None else row_under(row, convention, source.parameters)
    return replace(prepared, rows=rows)


def source_of(prepared: Prepared, name: str) -> RowSource:
    """The function for which a row stands. Where the preparation does not say it, no parameter is known."""
    return prepared.row_sources.get(name) or RowSource(name, ())


def row_under(row: Row, convention: Convention, parameters: tuple[int, ...]) -> Row:
    """The row of a call whose function has this convention, where its parameters have these numbers in the source."""
    result = row.result
    if convention.returns == "borrowed" and result == "new":
        result = "borrowed"
    takes = set(row.takes)
    for number, (word, in_source) in enumerate(zip(row.params, parameters), 1):
        if word in ("object", "object?") and in_source in convention.takes:
            takes.add(number)
    on_success = () if result == "borrowed" else tuple(n for n in row.takes_on_success if n not in takes)
    return Row(row.params, result, tuple(sorted(takes)), on_success)


def variant(prepared: Prepared, conventions: Mapping[str, Convention]) -> Prepared:
    """The module where functions have, and rows say, these conventions."""
    functions = find_functions(prepared.text)
    own = {name: own_convention(prepared, functions[name], conventions[name])
           for name in functions.keys() & conventions.keys()}
    return replace(with_rows(prepared, conventions), conventions={**prepared.conventions, **own})


def own_convention(prepared: Prepared, function: FunctionText, convention: Convention) -> OwnConvention:
    """What a function of the module has where it has this convention, as far as it fits, besides its own."""
    known = prepared.conventions.get(function.name, OwnConvention())
    lends = known.returns_borrowed or convention.returns_borrowed and function.returns_object
    takes = {n for in_source, n in objects_of(prepared, function).items() if in_source in convention.takes}
    return OwnConvention(lends, tuple(sorted(takes.union(known.takes))))


def objects_of(prepared: Prepared, function: FunctionText) -> dict[int, int]:
    """The numbers of a function's parameters for objects: those in the source, each with that in the text."""
    in_source = prepared.parameters.get(function.name)
    return {in_source[number - 1] if in_source else number: number for number in function.objects}
