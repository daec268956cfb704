"""Places in memory that an expression names: variables, fields and elements."""

from __future__ import annotations

from pycparser import c_ast

from ..reading.syntax import place_named
from ..text.subset import Arrow, CastTo, Expr, Name
from ..types.c_types import OTHER, Array, CType, FunctionType, InUnion, Pointer, Struct, decayed, pointee
from ..types.kinds import ARRAY_SLOTS, ARRAY_TAG, HEAD_KEYS, Kind
from .conversions import effects_of
from .translation import Translation
from .values import Form, Target, Value, Variable, kept


def target(t: Translation, node: c_ast.Node) -> Target:
    """The place that an expression names."""
    node = place_named(node)
    if isinstance(node, c_ast.ID):
        return named(t, node)
    if isinstance(node, c_ast.StructRef):
        return member(t, node)
    if isinstance(node, c_ast.ArrayRef):
        return element(t, node.name, node.subscript)
    if isinstance(node, c_ast.UnaryOp) and node.op == "*":
        return element(t, node.expr, None)
    if isinstance(node, c_ast.Cast):
        return target(t, node.expr)
    value = t.value(node)
    return Target(Form.LOST, value.type, effects=effects_of(t, value))


def is_kept_type(t: Translation, kind: CType) -> bool:
    """A variable or field of this type stands in the printed text."""
    return t.kind(kind).is_kept and not isinstance(kind, (Array, FunctionType, InUnion))


def named(t: Translation, node: c_ast.ID) -> Target:
    """The place of a variable."""
    variable = t.lookup(node.name)
    if variable is not None:
        if not variable.is_printed:
            return Target(Form.LOST, variable.type)
        slot = variable.name if variable.is_static else None
        return Target(Form.KEPT, variable.type, Name(variable.name, place=t.place(node)), slot=slot)
    known = t.module.globals.get(node.name)
    if known is None:
        return Target(Form.LOST, OTHER)
    constant_object = node.name.startswith("PyExc_") or node.name in ("Py_NotImplemented", "Py_Ellipsis")
    if constant_object or known.is_own and is_kept_type(t, known.type):
        t.state.use_global(node.name, known.type)
        return Target(Form.KEPT, known.type, Name(node.name, place=t.place(node)), slot=node.name)
    return Target(Form.LOST, known.type)


def element(t: Translation, base: c_ast.Node, index: c_ast.Node | None) -> Target:
    """The place `base[index]`, or `*base` where there is no index."""
    number = t.constant(index) if index is not None else 0
    variable = t.lookup(base.name) if isinstance(base, c_ast.ID) else None
    if variable is not None and variable.members is not None and isinstance(variable.type, Array):
        part = variable.members.get(str(number))
        if part is not None:
            return Target(Form.KEPT, part[1], Name(part[0], place=t.place(base)))
        return Target(Form.ELEMENT, variable.type.element, effects=effects_of(t, t.value(index)) if index else [])
    value = t.value(base)
    of_type = pointee(value.type)
    effects = effects_of(t, t.value(index)) if index is not None and number is None else []
    if value.kind == Kind.OBJECT and t.kinds.is_objects(decayed(value.type)):
        if number is not None and 0 <= number < ARRAY_SLOTS:
            return array_slot(t, value, number, of_type, base)
        return Target(Form.ELEMENT, of_type, effects=effects_of(t, value) + effects)
    if value.kind == Kind.OBJECT and number == 0 and isinstance(of_type, Struct):
        return Target(Form.WHOLE, of_type, effects=effects_of(t, value), base=value)
    return Target(Form.LOST, of_type, effects=effects_of(t, value) + effects)


def array_slot(t: Translation, base: Value, number: int, of_type: CType, node: c_ast.Node) -> Target:
    """An element of an array of objects, by a constant index."""
    name = "i%d" % number
    t.state.structs[ARRAY_TAG] = None
    t.state.fields.setdefault(ARRAY_TAG, {})[name] = of_type
    code = Arrow(as_struct(t, base.code, base.type), name, place=t.place(node))
    return Target(Form.KEPT, of_type, code, slot=slot_of(code))


def slot_of(code: Expr) -> str | None:
    """The word for a field of a variable."""
    if isinstance(code, Arrow):
        base = code.base.operand if isinstance(code.base, CastTo) else code.base
        return "%s->%s" % (base.text, code.member) if isinstance(base, Name) else None
    return code.text if isinstance(code, Name) else None


def as_struct(t: Translation, code: Expr, kind: CType) -> Expr:
    """A base for `->`: what a call returns has no struct of its own, and is cast."""
    if isinstance(code, Name) or isinstance(code, Arrow) and not code.member.startswith("i"):
        return code
    if isinstance(code, CastTo) and code.words == t.kinds.words(kind):
        return code
    t.state.use_struct(kind)
    return CastTo(t.kinds.words(kind), code)


def member(t: Translation, node: c_ast.StructRef) -> Target:
    """The place of a member, by `.` or `->`."""
    names: list[str] = []
    base: c_ast.Node = node
    while isinstance(base, c_ast.StructRef) and base.type == ".":
        names.insert(0, base.field.name)
        base = place_named(base.name)
    if isinstance(base, c_ast.StructRef):
        names.insert(0, base.field.name)
        return through_pointer(t, t.value(base.name), tuple(names), node)
    if isinstance(base, c_ast.UnaryOp) and base.op == "*":
        return through_pointer(t, t.value(base.expr), tuple(names), node)
    if isinstance(base, c_ast.ID):
        return of_variable(t, base, tuple(names), node)
    if isinstance(base, c_ast.ArrayRef):
        found = element(t, base.name, base.subscript)
        return Target(Form.LOST, path_type(t, found.type, tuple(names)), effects=found.effects)
    value = t.value(base)
    return Target(Form.LOST, path_type(t, value.type, tuple(names)), effects=effects_of(t, value))


def path_type(t: Translation, kind: CType, names: tuple[str, ...]) -> CType:
    """The type of a member of a struct by value."""
    found = t.types.path(kind.key, names) if isinstance(kind, Struct) else None
    if isinstance(found, InUnion):
        return found.member
    return found or OTHER


def of_variable(t: Translation, base: c_ast.ID, names: tuple[str, ...], node: c_ast.Node) -> Target:
    """A member of a struct that is a variable."""
    variable = t.lookup(base.name)
    if variable is not None:
        part = (variable.members or {}).get("__".join(names))
        if part is not None:
            return Target(Form.KEPT, part[1], Name(part[0], place=t.place(node)))
        return Target(Form.LOST, path_type(t, variable.type, names))
    known = t.module.globals.get(base.name)
    if known is None:
        return Target(Form.LOST, OTHER)
    if known.is_own and isinstance(known.type, Struct) and t.kinds.is_state(known.type.key):
        found = t.types.path(known.type.key, names)
        if found is not None and is_kept_type(t, found):
            name = "__".join((base.name,) + names)
            t.state.use_global(name, found)
            return Target(Form.KEPT, found, Name(name, place=t.place(node)), slot=name)
    return Target(Form.LOST, path_type(t, known.type, names))


def through_pointer(t: Translation, base: Value, names: tuple[str, ...], node: c_ast.Node) -> Target:
    """A member of the struct that a pointer points to."""
    struct = pointee(base.type)
    found = t.types.path(struct.key, names) if isinstance(struct, Struct) else None
    if found is None or isinstance(found, InUnion):
        return Target(Form.LOST, found.member if isinstance(found, InUnion) else OTHER, effects=effects_of(t, base))
    assert isinstance(struct, Struct)
    if base.kind != Kind.OBJECT:
        return Target(Form.LOST, found, effects=effects_of(t, base))
    if struct.key in HEAD_KEYS or names[0] == "ob_base" or names[-1] in ("ob_type", "ob_refcnt", "ob_size"):
        return Target(Form.HEAD, found, effects=effects_of(t, base), base=base, member=names[-1])
    if isinstance(found, Array) and t.kinds.is_python_object(found.element):
        return Target(Form.ELEMENT, found, effects=effects_of(t, base))
    if not is_kept_type(t, found) or is_in_foreign_struct(t, struct, names):
        return Target(Form.LOST, found, effects=effects_of(t, base))
    return field(t, base, struct, names, node)


def is_in_foreign_struct(t: Translation, struct: Struct, names: tuple[str, ...]) -> bool:
    """A member of a struct by value that is not the module's own, such as a `Py_buffer`: calls change it unseen."""
    for at in range(1, len(names)):
        inner = t.types.path(struct.key, names[:at])
        if isinstance(inner, Struct) and not t.kinds.is_object_struct(inner.key):
            info = t.types.structs.get(inner.key)
            if info is None or not t.kinds.is_own(info.file):
                return True
    return False


def field(t: Translation, base: Value, struct: Struct, names: tuple[str, ...], node: c_ast.Node) -> Target:
    """A field that is kept. One of a base struct by value belongs to that struct, so that it is one place whichever way
    it is reached."""
    key = struct.key
    while len(names) > 1:
        members = t.types.members(key)
        first = t.types.of(members[0][1]) if members and members[0][0] == names[0] else None
        if not isinstance(first, Struct) or not t.kinds.is_object_struct(first.key) or first.key in HEAD_KEYS:
            break
        key, names = first.key, names[1:]
    kind = t.types.path(key, names)
    assert kind is not None
    name = "f_" + "__".join(names)
    t.state.use_field(key, name, kind)
    owner = Pointer(Struct(key))
    code = as_struct(t, base.code, base.type)
    if key != struct.key:
        code = CastTo(t.kinds.words(owner), base.code)
    found = Arrow(code, name, place=t.place(node))
    borrowed = t.kinds.is_uncounted(kind) or t.state.is_declared_borrowed(key, name.removeprefix("f_"))
    return Target(Form.KEPT, kind, found, slot=slot_of(found), is_borrowed=borrowed)


def variable_value(t: Translation, variable: Variable, node: c_ast.ID) -> Value | None:
    """The value of a parameter or local that is printed."""
    if not variable.is_printed or variable.members is not None:
        return None
    return kept(variable.kind, variable.type, Name(variable.name, place=t.place(node)))
