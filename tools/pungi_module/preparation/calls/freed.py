"""The end of an object: where it is freed, its fields give their references up."""

from __future__ import annotations

from pycparser import c_ast

from ..reading.syntax import arguments, below, called_name, stripped, type_name
from ..text.subset import EndOfObject, Name
from ..translation.conversions import effects_of
from ..translation.translation import Translation
from ..translation.values import Value, done, done_by
from ..types.c_types import CType, Pointer, Struct
from ..types.kinds import HEAD_KEYS, Kind
from .row_names import freeing_calls
from .tables import FREEING_SLOTS

#: Calls that make memory, as for a struct that has no count, and those that free it.
MEMORY_CALLS = frozenset("""
    malloc calloc PyMem_Malloc PyMem_Calloc PyMem_RawMalloc PyMem_RawCalloc PyObject_Malloc PyObject_Calloc
""".split())
MEMORY_ENDS = frozenset("free PyMem_Free PyMem_FREE PyMem_Del PyMem_DEL PyMem_RawFree PyObject_Free".split())

#: Calls that make an object with fields.
MAKING_CALLS = frozenset("pungi_New tp_alloc PyType_GenericAlloc PyType_GenericNew".split())


def freed(t: Translation, node: c_ast.Node, argument: c_ast.Node) -> Value:
    """The object is freed."""
    value = t.value(argument)
    t.assume("end of an object", "each field gives its reference up", node)
    inner = stripped(argument)
    base = value.code
    if value.kind != Kind.OBJECT or not isinstance(inner, c_ast.ID):
        return done_by(effects_of(t, value))
    plain = t.value(inner)
    if isinstance(plain.code, Name):
        base = plain.code
    key = struct_of(t, plain.type)
    gives_type = not t.module.is_memory_struct(plain.type) and gives_type_up(t)
    return done(EndOfObject(key, base, gives_type, is_made_here(t, inner.name), place=t.place(node)))


def struct_of(t: Translation, kind: CType) -> str | None:
    """The key of the struct of an object that is freed: that of its variable, or of another that holds the object."""
    if t.module.is_memory_struct(kind):
        assert isinstance(kind, Pointer) and isinstance(kind.target, Struct)
        return kind.target.key
    candidates = [kind] + [variable.type for scope in t.scopes for variable in scope.values()]
    for found in candidates:
        if isinstance(found, Pointer) and isinstance(found.target, Struct) and t.kinds.is_python_object(found):
            if found.target.key not in HEAD_KEYS:
                return found.target.key
    return None


def is_made_here(t: Translation, name: str) -> bool:
    """The function itself makes the object that the variable holds."""
    for item in below(t.node.body):
        source = None
        if isinstance(item, c_ast.Assignment) and isinstance(item.lvalue, c_ast.ID) and item.lvalue.name == name:
            source = item.rvalue
        elif isinstance(item, c_ast.Decl) and item.name == name:
            source = item.init
        if source is not None and called_name(stripped(source)) in MAKING_CALLS:
            return True
    return False


def gives_type_up(t: Translation) -> bool:
    """The function gives up its object's reference to its type, or is the deallocator of a heap type, which must."""
    if t.name in t.state.slots.heap_deallocators:
        return True
    types: set[str] = set()
    for item in below(t.node.body):
        if isinstance(item, c_ast.Decl) and item.init is not None and is_type(item.init, types):
            types.add(item.name)
        elif isinstance(item, c_ast.Assignment) and isinstance(item.lvalue, c_ast.ID) and is_type(item.rvalue, types):
            types.add(item.lvalue.name)
        elif called_name(item) in ("Py_DECREF", "Py_XDECREF") and arguments(item):
            if is_type(arguments(item)[0], types):
                return True
    return False


def is_type(node: c_ast.Node, types: set[str]) -> bool:
    """The expression is the type of an object."""
    node = stripped(node)
    if called_name(node) == "Py_TYPE":
        return True
    if isinstance(node, c_ast.ID):
        return node.name in types
    return isinstance(node, c_ast.StructRef) and node.field.name == "ob_type"


def freeing_names(node: c_ast.Node) -> set[str]:
    """The locals that hold a type's `tp_free`."""
    return {item.name for item in below(node) if isinstance(item, c_ast.Decl) and type_name(item.type) == "freefunc"}


def frees_something(node: c_ast.Node) -> bool:
    """An object is freed in the statement."""
    names = freeing_calls() | FREEING_SLOTS | freeing_names(node)
    return any(called_name(item) in names for item in below(node))
