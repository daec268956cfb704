"""From a module's source to the text that Pungi reads."""

from __future__ import annotations

import os

from pycparser import c_ast

from ..model import Assumption, Place, Prepared, PreparedFunction, Row
from ..slot_words import source_words
from ..uncollected import uncollected
from .options import Options
from .passes.arithmetic import Arithmetic
from .passes.collapse import Collapse
from .passes.flattened import flattened
from .passes.dead_locals import with_dead_locals_set
from .passes.first_stores import FirstStores
from .passes.emptied import with_emptied
from .passes.implemented import with_other_results
from .passes.init_once import guarded
from .passes.loosened import Loosened
from .passes.resolve import resolved
from .passes.shared_locals import with_shared_locals
from .passes.unused import Unused
from .reading.parse import parse
from .reading.preprocess import python_flags
from .reading.syntax import names_in
from .text.assemble import numbers_in_source, own_conventions, print_text, row_sources, used_rows
from .text.limits import broken_limit, broken_size
from .text.printed_function import PrintedFunction
from .text.subset import Name, walk
from .text.text_state import TextState
from .translation import translators
from .translation.functions import translate
from .translation.values import Cannot
from .types.module import Module
from .types.type_slots import TypeSlots

#: How often the functions are translated again because one of them turned out not to be expressible.
ROUND_LIMIT = 8

#: How many modules that were read are remembered.
MODULE_LIMIT = 8

_MODULES: dict[tuple[str, int, tuple[str, ...]], Module] = {}

assert translators.ALL


def prepare(source: str, flags: list[str] | None, rows: dict[str, Row], options: Options | None = None) -> Prepared:
    """Prepares a source file. `flags` are the compiler's; None stands for those of the running Python."""
    with uncollected():
        return prepare_module(read_module(source, flags), rows, options or Options())


def read_module(source: str, flags: list[str] | None) -> Module:
    """The module of a source file; one that was read before and has not changed is not read again."""
    flags = python_flags() if flags is None else flags
    key = (os.path.abspath(source), os.stat(source).st_mtime_ns, tuple(flags))
    if key not in _MODULES:
        if len(_MODULES) >= MODULE_LIMIT:
            del _MODULES[next(iter(_MODULES))]
        _MODULES[key] = Module(parse(source, flags))
    return _MODULES[key]


def prepare_module(module: Module, rows: dict[str, Row], options: Options) -> Prepared:
    """Prepares a module that is read. A function that cannot be expressed becomes a row for its callers, and the others
    are translated again."""
    slots = TypeSlots(module)
    refused = dict(options.refused)
    for _ in range(ROUND_LIMIT):
        state = TextState(module, slots, rows, options, refused)
        functions, failed = translate_all(state)
        if not failed:
            break
        refused = {**refused, **failed}
    return assembled(state, functions)


def translate_all(state: TextState) -> tuple[list[PrintedFunction], dict[str, str]]:
    """Each function that can be expressed, and why the others cannot."""
    found: list[PrintedFunction] = []
    failed: dict[str, str] = {}
    for name in callees_first(state.module):
        if name in state.refused:
            continue
        try:
            found.append(fitting(state, state.module.functions[name]))
            state.finished.add(found[-1])
        except Cannot as reason:
            failed[name] = str(reason)
        except RecursionError:
            failed[name] = "nested too deep"
    called = {name for function in found for name in function.kept}
    functions = [spelled_out(state, function, function.name in called) for function in found]
    for function in functions:
        reason = broken_limit(function)
        if reason is not None:
            failed[function.name] = reason
    return functions, failed


def callees_first(module: Module) -> list[str]:
    """The functions, each after those that it names, where these do not name it in turn."""
    found: dict[str, None] = {}
    waiting = [(name, False) for name in reversed(module.functions)]
    begun: set[str] = set()
    while waiting:
        name, is_after = waiting.pop()
        if is_after:
            found[name] = None
        elif name not in begun:
            begun.add(name)
            waiting.append((name, True))
            named = names_in(module.functions[name].body) & module.functions.keys()
            waiting += [(callee, False) for callee in sorted(named - begun, reverse=True)]
    return list(found)


def spelled_out(state: TextState, function: PrintedFunction, is_called: bool) -> PrintedFunction:
    """The function with what depends on the fields that the text names; its dead locals are set where that is asked
    for, and where it does not grow too large by that. The parameters of a function that is called stay as they are."""
    function.body = resolved(state, function.body)
    if function.name in state.options.cleared:
        cleared = with_dead_locals_set(function, state.rows)
        cleared.parameters = function.parameters if is_called else cleared.parameters
        return function if broken_limit(cleared) else cleared
    return function


def fitting(state: TextState, node: c_ast.FuncDef) -> PrintedFunction:
    """The finished function: without calls that stay calls, where it cannot be expressed with them; where it is too large,
    without the bodies of callees, and then without its numbers."""
    try:
        function = finished(state, node)
    except Cannot:
        if node.decl.name in state.without_calls:
            raise
        state.without_calls.add(node.decl.name)
        function = finished(state, node)
    for without in (state.without_bodies, state.without_numbers):
        if broken_size(function) is None:
            break
        without.add(node.decl.name)
        function = finished(state, node)
    return function


def finished(state: TextState, node: c_ast.FuncDef) -> PrintedFunction:
    """The translated function, in which parts without objects collapse and first stores are guarded."""
    function = translate(state, node)
    parameters = {name for _, name in function.parameters}
    function.body = Collapse(state.rows, function.variables).body(function.body)
    is_loosened = function.name in state.options.loosened
    if is_loosened:
        function.body = Loosened(state.rows, function.variables, parameters).body(function.body)
    arithmetic = Arithmetic(state.rows, function.variables)
    function.body = arithmetic.body(function.body)
    function.body = Unused(state.rows, function.variables, parameters, is_loosened).body(function.body)
    if is_loosened:
        function.parameters = named_parameters(function)
    function.assumptions += [Assumption("any number", op, place)
                             for place, op in arithmetic.left_in(function.body).items()]
    stores = FirstStores(state, node, function.variables)
    function.body, slots = guarded(function.body, stores.is_first, stores.is_global, state.finished.stored)
    for slot in dict.fromkeys(slots):
        function.assumptions.append(Assumption(stores.assumption(slot), source_words(slot), function.place))
    function.body, results = with_other_results(function.body, state.finished.named)
    function.body, emptied = with_emptied(function.body, lambda name: is_memory_struct(state, function, name),
                                          state.finished.named)
    for kind, named in (("call implemented", results), ("field given up", emptied)):
        for place, word in named.items():
            function.assumptions.append(Assumption(kind, source_words(word), place or function.place))
    function.body = flattened(function.body)
    if broken_size(function) is not None:
        function.body = with_shared_locals(function.body)
    if function.place.file != state.module.parsed.path:
        function.line = state.module.parsed.include_lines.get(function.place.file, 1)
    return function


def named_parameters(function: PrintedFunction) -> list[tuple[str, str]]:
    """The parameters that the body or its convention names: the program tells apart what each of the others may be at
    entry."""
    named = {node.text for node in walk(function.body) if isinstance(node, Name)}.union(function.taken)
    return [parameter for parameter in function.parameters if parameter[1] in named]


def is_memory_struct(state: TextState, function: PrintedFunction, name: str) -> bool:
    """A variable of the function points to a struct without a count that is no module's state."""
    return name in function.variables and state.module.is_memory_struct(function.variables[name].type)


def assembled(state: TextState, functions: list[PrintedFunction]) -> Prepared:
    """The prepared module."""
    printer, lines = print_text(state, functions)
    by_name = {function.name: function for function in functions}
    in_tables = state.module.names_in_tables()
    found = []
    for name, node in state.module.functions.items():
        function = by_name.get(name)
        if function is None:
            item = not_prepared(name, node.decl, state.refused.get(name, "not expressed"))
        else:
            item = PreparedFunction(name, function.place, lines[name], function.assumptions, function.calls, function.kept)
        item.is_in_table = name in in_tables or name.startswith("PyInit_")
        found.append(item)
    for name, declaration in state.module.unparsed.items():
        if name not in state.module.functions:
            found.append(not_prepared(name, declaration, "the parser does not read its body"))
    rows = used_rows(state, functions)
    return Prepared(state.module.parsed.path, "".join(printer.out), rows, found, printer.places,
                    own_conventions(functions), numbers_in_source(functions), row_sources(state, rows),
                    state.module.parsed.notes)


def not_prepared(name: str, node: c_ast.Decl, reason: str) -> PreparedFunction:
    """A function that does not stand in the text."""
    place = Place(node.coord.file, node.coord.line, node.coord.column or 1)
    return PreparedFunction(name, place, 0, not_prepared=reason)
