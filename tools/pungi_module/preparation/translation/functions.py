"""A whole function: its parameters, its conventions and its body."""

from __future__ import annotations

from pycparser import c_ast

from ..text.subset import STOP, Arrow, Binary, Block, If, Name, Stmt
from ..text.printed_function import PrintedFunction
from ..text.text_state import TextState
from ..types.c_types import OBJECTS, VOID, CType, decayed
from ..types.kinds import ARRAY_TAG, Kind
from .directions import Direction, direction
from .translation import Translation
from .values import Cannot, Variable


def parameter_nodes(node: c_ast.FuncDef) -> list[c_ast.Node]:
    """The declared parameters of a function."""
    declared = node.decl.type.args.params if node.decl.type.args else []
    return [item for item in declared if isinstance(item, (c_ast.Decl, c_ast.Typename))]


def translate(state: TextState, node: c_ast.FuncDef) -> PrintedFunction:
    """The function in the printed text's words."""
    if node.param_decls:
        raise Cannot("a definition in the style before C89")
    t = Translation(state, node)
    if t.signature.variadic:
        t.assume("variadic", "further arguments are any values", node)
    parameters: list[tuple[str, str]] = []
    numbers: dict[str, int] = {}
    for number, item in enumerate(parameter_nodes(node), 1):
        kind = decayed(t.types.of(item.type))
        if kind == VOID:
            continue
        parameters += parameter(t, item, kind, len(parameters))
        numbers |= {name: number for _, name in parameters if name not in numbers}
    taken = taken_parameters(t)
    start = output_parameters(t)
    body = t.statement(node.body)[0]
    assert isinstance(body, Block)
    place = t.place(node.decl)
    assert place is not None
    result = t.kinds.words(t.signature.result)
    state.use_struct(t.signature.result)
    return PrintedFunction(t.name, place, result, parameters, Block((*start, *body.items), place=body.place),
                           t.assumptions, t.calls, t.variables, t.kept, t.through, numbers, lends_result(t), taken)


def parameter(t: Translation, item: c_ast.Node, kind: CType, at: int) -> list[tuple[str, str]]:
    """A parameter, where its kind is kept."""
    name = getattr(item, "name", None)
    of_kind = t.kind(kind)
    if not of_kind.is_kept:
        if name:
            t.declare(name, Variable(name, kind, of_kind, is_printed=False))
        return []
    printed = t.printed_name(name) if name else "pungi_unused_%d" % at
    t.state.use_struct(kind)
    variable = Variable(printed, kind, of_kind)
    t.declare(name or printed, variable)
    return [(t.kinds.words(kind), printed)]


def taken_parameters(t: Translation) -> tuple[str, ...]:
    """The printed names of the parameters whose references a function takes over by declaration."""
    said = t.state.options.conventions.get(t.name)
    if said is None:
        return ()
    t.assume("declared", t.name, t.node.decl)
    nodes = parameter_nodes(t.node)
    names = [getattr(nodes[number - 1], "name", None) for number in said.takes if number <= len(nodes)]
    variables = [t.lookup(name) for name in names if name]
    return tuple(variable.name for variable in variables if variable is not None and variable.kind == Kind.OBJECT)


def lends_result(t: Translation) -> bool:
    """A function returns a borrowed reference: by declaration, or as what it returns has no count."""
    said, result = t.state.options.conventions.get(t.name), t.signature.result
    if t.kind(result) != Kind.OBJECT:
        return False
    return t.kinds.is_uncounted(result) or said is not None and said.returns_borrowed


def output_parameters(t: Translation) -> list[Stmt]:
    """Parameters that are stored through first hold no reference at entry."""
    found: list[Stmt] = []
    outputs: list[Name] = []
    for name, variable in list(t.scopes[0].items()):
        if variable.kind != Kind.OBJECT or not t.kinds.is_objects(variable.type):
            continue
        if direction(t.node, name) == Direction.OUT:
            t.state.structs[ARRAY_TAG] = None
            t.state.fields.setdefault(ARRAY_TAG, {})["i0"] = OBJECTS.target
            t.assume("output parameter", name, t.node.decl)
            output = Name(variable.name)
            stops = [If(Binary("==", output, other), Block((STOP,))) for other in outputs]
            found.append(If(output, Block((If(Arrow(output, "i0"), Block((STOP,))), *stops))))
            outputs.append(output)
    return found
