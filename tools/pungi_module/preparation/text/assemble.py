"""The prepared text as a whole: declarations on its first line, then the functions."""

from __future__ import annotations

from ...model import OwnConvention, Row, RowSource
from ..types.c_types import OBJECT, CType
from ..types.kinds import ARRAY_TAG, HEAD_TAG
from .printed_function import PrintedFunction
from .printer import Printer
from .subset import Call, walk
from .text_state import TextState


def use_all_structs(state: TextState) -> None:
    """The structs that printed fields and globals name are declared too."""
    kinds: list[CType] = [kind for fields in state.fields.values() for kind in fields.values()]
    for kind in kinds + list(state.globals.values()):
        state.use_struct(kind)


def declarations(state: TextState) -> str:
    """The structs, type objects, tables and globals that the functions name."""
    found = []
    for tag, key in sorted(state.structs.items()):
        if tag == HEAD_TAG:
            fields = "PyObject *t;"
        else:
            named = array_fields(state) if tag == ARRAY_TAG else state.fields.get(key or "", {})
            fields = " ".join("%s%s;" % (state.kinds.words(kind), name) for name, kind in sorted(named.items()))
        found.append("struct %s { PyObject ob_base; %s };" % (tag, fields))
    found += ["extern PyTypeObject %s;" % name for name in sorted(state.type_objects)]
    found += ["static PyModuleDef %s;" % name for name in sorted(state.module_tables)]
    for name, kind in sorted(state.globals.items()):
        storage = "static" if is_own_global(state, name) else "extern"
        found.append("%s %s%s;" % (storage, state.kinds.words(kind), name))
    return " ".join(found)


def array_fields(state: TextState) -> dict[str, CType]:
    """The elements of an array of objects, up to the last that the text names."""
    last = max((int(name[1:]) for name in state.fields.get(ARRAY_TAG, {})), default=-1)
    return {"i%d" % at: OBJECT for at in range(last + 1)}


def is_own_global(state: TextState, name: str) -> bool:
    """A variable of the module: at file level, static in a function, or a part of a struct."""
    return name not in state.module.globals or state.module.globals[name].is_own


def print_text(state: TextState, functions: list[PrintedFunction]) -> tuple[Printer, dict[str, int]]:
    """Prints the text; the line of each function's name."""
    use_all_structs(state)
    printer = Printer(state.module.parsed.path)
    printer.write(declarations(state) + " ")
    lines = {}
    for function in sorted(functions, key=lambda item: item.line if item.line is not None else item.place.line):
        lines[function.name] = printer.function(function)
    printer.new_line()
    return printer, lines


def row_sources(state: TextState, rows: dict[str, Row]) -> dict[str, RowSource]:
    """Which functions the rows stand for."""
    return {name: state.rows.sources[name] for name in rows if name in state.rows.sources}


def own_conventions(functions: list[PrintedFunction]) -> dict[str, OwnConvention]:
    """The conventions of the functions that have one."""
    found = {function.name: function.convention() for function in functions}
    return {name: convention for name, convention in found.items() if convention is not None}


def numbers_in_source(functions: list[PrintedFunction]) -> dict[str, tuple[int, ...]]:
    """The numbers of parameters in the source, where they are others than in the text."""
    found = {function.name: function.parameters_in_source() for function in functions}
    return {name: numbers for name, numbers in found.items() if numbers != tuple(range(1, len(numbers) + 1))}


def used_rows(state: TextState, functions: list[PrintedFunction]) -> dict[str, Row]:
    """The rows that the printed functions call, besides those that Pungi knows."""
    called = {node.name for function in functions for node in walk(function.body) if isinstance(node, Call)}
    return {name: row for name, row in sorted(state.rows.rows.items()) if name in called}
