"""Elements whose reference goes to a variable: those that are read, and then stored over or given up."""

from __future__ import annotations

from pycparser import c_ast

from ..reading.syntax import arguments, called_name, stripped
from ..types.c_types import OBJECT
from ..types.kinds import Kind
from .translation import Translation
from .values import Value, kept

ITEM_READS = frozenset(
    "PyTuple_GET_ITEM PyList_GET_ITEM PyTuple_GetItem PyList_GetItem PyStructSequence_GET_ITEM".split())
ITEM_STORES = frozenset("PyTuple_SET_ITEM PyList_SET_ITEM PyStructSequence_SET_ITEM".split())
COUNT_CALLS = frozenset("Py_DECREF Py_XDECREF Py_INCREF Py_XINCREF".split())


def spelling(node: c_ast.Node) -> str | None:
    """A text by which two expressions without calls can be compared."""
    node = stripped(node)
    if isinstance(node, c_ast.ID):
        return node.name
    if isinstance(node, c_ast.Constant):
        return node.value
    if isinstance(node, c_ast.StructRef):
        base = spelling(node.name)
        return base and base + node.type + node.field.name
    if isinstance(node, c_ast.BinaryOp):
        left, right = spelling(node.left), spelling(node.right)
        return left and right and "(%s%s%s)" % (left, node.op, right)
    if isinstance(node, c_ast.ArrayRef):
        left, right = spelling(node.name), spelling(node.subscript)
        return left and right and "%s[%s]" % (left, right)
    if isinstance(node, c_ast.UnaryOp) and node.op in ("-", "*"):
        operand = spelling(node.expr)
        return operand and node.op + operand
    return None


def element_read(node: c_ast.Node) -> str | None:
    """The element of a container or array that an expression reads."""
    node = stripped(node)
    if called_name(node) in ITEM_READS and len(arguments(node)) == 2:
        left, right = (spelling(argument) for argument in arguments(node))
        return left and right and "item %s %s" % (left, right)
    return spelling(node) if isinstance(node, c_ast.ArrayRef) else None


def element_stored(node: c_ast.Node) -> str | None:
    """The element of a container or array that a statement stores into."""
    if called_name(node) in ITEM_STORES and len(arguments(node)) == 3:
        left, right = (spelling(argument) for argument in arguments(node)[:2])
        return left and right and "item %s %s" % (left, right)
    if isinstance(node, c_ast.Assignment) and node.op == "=" and isinstance(node.lvalue, c_ast.ArrayRef):
        return spelling(node.lvalue)
    return None


def read_into(node: c_ast.Node) -> tuple[str, c_ast.Node] | None:
    """A variable that a statement sets, and what it is set to."""
    if isinstance(node, c_ast.Assignment) and node.op == "=" and isinstance(node.lvalue, c_ast.ID):
        return node.lvalue.name, node.rvalue
    if isinstance(node, c_ast.Decl) and node.init is not None:
        return node.name, node.init
    return None


def moved_out(block: c_ast.Compound) -> set[int]:
    """The statements of a block that read an element whose reference goes to the variable."""
    items = block.block_items or []
    return {id(item) for at, item in enumerate(items) if is_moved(item, items[at + 1:])}


def is_moved(node: c_ast.Node, later: list[c_ast.Node]) -> bool:
    """The element that the statement reads is stored over, or given up, before it is read again."""
    found = read_into(node)
    element = element_read(found[1]) if found else None
    if found is None or element is None:
        return False
    for item in later:
        if element_stored(item) == element:
            return True
        again = read_into(item)
        if again is not None and element_read(again[1]) == element:
            return False
        if called_name(item) in COUNT_CALLS and spelling(arguments(item)[0]) == found[0]:
            return not element.startswith("item ") and "DEC" in called_name(item)
    return False


def moved_value(t: Translation, node: c_ast.Node, source: c_ast.Node) -> Value | None:
    """The reference that a variable gets from an element."""
    if id(node) not in t.moved:
        return None
    source = stripped(source)
    if isinstance(source, c_ast.ArrayRef):
        from .targets import element
        from .values import Form
        if element(t, source.name, source.subscript).form != Form.ELEMENT:
            return None
    t.assume("element moved out", "the element's reference goes to the variable", node)
    return kept(Kind.OBJECT, OBJECT, t.generic("new"))
