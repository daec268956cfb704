"""Locals."""

from __future__ import annotations

from pycparser import c_ast

from ..calls.allocation import allocation, as_type, with_empty_fields
from ..calls.buffers import OWNER, is_buffer, is_followed
from ..calls.in_place import first_call_in_place
from ..text.subset import NULL, ZERO, Assign, Declare, Expr, Expression, Name, Stmt
from ..types.c_types import OBJECT, Array, CType, FunctionType, Struct
from ..types.kinds import Kind
from .conversions import any_value, effects_of, fit
from .handlers import statement
from .moves import moved_value, spelling
from .struct_copies import is_copied, part_of
from .struct_copies import parts as parts_by_value
from .targets import is_kept_type
from .translation import Translation
from .values import Cannot, Form, Target, Variable

#: Local arrays of objects up to this length are kept element by element.
ARRAY_LIMIT = 6

#: How deep a local struct's structs are kept.
STRUCT_DEPTH = 3


@statement(c_ast.Decl)
def declaration(t: Translation, node: c_ast.Decl) -> list[Stmt]:
    """The declaration of a local."""
    t.types.add(node.type)
    if node.name is None or isinstance(node.type, c_ast.FuncDecl):
        return []
    kind = t.types.of(node.type)
    if "static" in node.storage or "extern" in node.storage:
        return file_level(t, node, kind)
    if isinstance(kind, Array) and t.kinds.is_python_object(kind.element) and 0 < (kind.length or 0) <= ARRAY_LIMIT:
        return array_of_objects(t, node, kind)
    if isinstance(kind, Struct) and t.kinds.is_state(kind.key):
        return struct_with_objects(t, node, kind)
    if is_buffer(t, kind) and is_followed(t, node.name):
        part = {OWNER: (t.printed_name("%s__%s" % (node.name, OWNER)), OBJECT)}
        return parts_of(t, node, kind, part, [name or "" for name, _, _ in t.types.members(kind.key)])
    if isinstance(kind, (Array, FunctionType, Struct)) or not is_kept_local(t, kind):
        t.declare(node.name, Variable(node.name, kind, Kind.OPAQUE, is_printed=False))
        if node.init is None:
            return []
        effects = effects_of(t, t.value(node.init))
        return [Expression(expr, place=expr.place or t.place(node)) for expr, _ in effects]
    return plain_local(t, node, kind)


def is_kept_local(t: Translation, kind: CType) -> bool:
    """A local of this type stands in the printed text."""
    of_kind = t.kind(kind)
    return of_kind.is_kept and (of_kind == Kind.OBJECT or t.node.decl.name not in t.state.without_numbers)


def file_level(t: Translation, node: c_ast.Decl, kind: CType) -> list[Stmt]:
    """A `static` or `extern` local: a global."""
    if "extern" in node.storage:
        return []
    name = "%s__%s" % (t.name, node.name)
    if is_kept_type(t, kind):
        t.state.use_global(name, kind)
        t.declare(node.name, Variable(name, kind, t.kind(kind), is_static=True))
    else:
        t.declare(node.name, Variable(name, kind, Kind.OPAQUE, is_printed=False))
    return []


def plain_local(t: Translation, node: c_ast.Decl, kind: CType) -> list[Stmt]:
    """A local that is kept."""
    variable = Variable(t.printed_name(node.name), kind, t.kind(kind))
    t.state.use_struct(kind)
    words, place = t.kinds.words(kind), t.place(node)
    if node.init is None:
        t.declare(node.name, variable)
        return [Declare(words, variable.name, place=place)]
    made = allocation(t, node.init, kind) if variable.kind == Kind.OBJECT else None
    if made is not None:
        t.declare(node.name, variable)
        name = Name(variable.name)
        assign = Assign(name, "=", as_type(t, made, kind), place=place)
        t.assume("new object", variable.name, node)
        filled = with_empty_fields(t, assign, made.type, Target(Form.KEPT, kind, name))
        return [Declare(words, variable.name, place=place), Expression(filled, place=place)]
    init = node.init
    if isinstance(init, c_ast.InitList) and init.exprs:
        init = init.exprs[0]
    before, init = first_call_in_place(t, init)
    value = moved_value(t, node, init) or t.value(init)
    if value.kind == Kind.VOID:
        raise Cannot("the value of a call that has none")
    code = fit(t, value, kind, node)
    t.declare(node.name, variable)
    return before + [Declare(words, variable.name, code, place=place)]


def zero_of(kind: Kind) -> Expr:
    """What an object with static storage or the rest of an initialised struct holds."""
    return NULL if kind in (Kind.OBJECT, Kind.TEXT) else ZERO


def initial_items(t: Translation, node: c_ast.Decl, names: list[str]) -> dict[str, c_ast.Node]:
    """The initial values of a struct or array, by the names or numbers of its parts."""
    found: dict[str, c_ast.Node] = {}
    at = 0
    for item in node.init.exprs or () if isinstance(node.init, c_ast.InitList) else ():
        if isinstance(item, c_ast.NamedInitializer):
            word = item.name[0]
            name = word.name if isinstance(word, c_ast.ID) else str(t.constant(word))
            at = names.index(name) if name in names else at
            item = item.expr
        if at < len(names):
            found[names[at]] = item
        at += 1
    return found


def array_of_objects(t: Translation, node: c_ast.Decl, kind: Array) -> list[Stmt]:
    """A short array of objects: a local for each element."""
    assert kind.length is not None
    names = [str(at) for at in range(kind.length)]
    parts = {name: (t.printed_name("%s_%s" % (node.name, name)), kind.element) for name in names}
    return parts_of(t, node, kind, parts, names)


def struct_with_objects(t: Translation, node: c_ast.Decl, kind: Struct) -> list[Stmt]:
    """A struct with fields for objects: a local for each field."""
    parts: dict[str, tuple[str, CType]] = {}
    collect_parts(t, kind.key, "", node.name, parts)
    names = [member[0] or "" for member in t.types.members(kind.key)]
    return parts_of(t, node, kind, parts, names)


def collect_parts(t: Translation, key: str, prefix: str, base: str, parts: dict[str, tuple[str, CType]],
                  depth: int = 0) -> None:
    """The kept fields of a struct by value, by their paths."""
    for name, member, _ in t.types.members(key):
        kind = t.types.of(member)
        if name is None:
            continue
        if isinstance(kind, Struct) and depth < STRUCT_DEPTH:
            if kind.key in t.types.structs and not t.types.structs[kind.key].is_union:
                collect_parts(t, kind.key, prefix + name + "__", base, parts, depth + 1)
        elif is_kept_type(t, kind):
            parts[prefix + name] = (t.printed_name("%s__%s%s" % (base, prefix, name)), kind)


def parts_of(t: Translation, node: c_ast.Decl, kind: CType, parts: dict[str, tuple[str, CType]],
             names: list[str]) -> list[Stmt]:
    """The declarations of a struct's or array's parts."""
    place = t.place(node)
    is_list = isinstance(node.init, c_ast.InitList)
    items = initial_items(t, node, names)
    is_copied_unset = node.init is None and isinstance(kind, Struct) and is_copied(t, node.name)
    is_copy = isinstance(kind, Struct) and node.init is not None and spelling(node.init) is not None
    copied = {"__".join(names): part_of(node.init, names) for names in parts_by_value(t, kind)} if is_copy else {}
    found: list[Stmt] = []
    if node.init is not None and not is_list and not is_copy:
        found += [Expression(expr, place=place) for expr, _ in effects_of(t, t.value(node.init))]
    for path, (name, part) in parts.items():
        t.state.use_struct(part)
        item = items.get(path) or copied.get(path)
        code: Expr | None = None
        if item is not None and not isinstance(item, c_ast.InitList):
            code = fit(t, t.value(item), part, node)
        elif is_list:
            code = zero_of(t.kind(part))
        elif node.init is not None or is_copied_unset:
            code = any_value(t, part, []).code
        found.append(Declare(t.kinds.words(part), name, code, place=place))
    t.declare(node.name, Variable(node.name, kind, Kind.OPAQUE, is_printed=False, members=parts))
    return found
