"""Values of expressions along a replayed run."""

from __future__ import annotations

from pycparser import c_ast

from ..slot_words import source_words
from .account import Object
from .machine import Machine
from .values import STATICS, TEXT, NotReplayed, arithmetic, constant


def at(node: c_ast.Node) -> tuple[int, int]:
    """The place of a node."""
    return node.coord.line, node.coord.column


class Expressions:
    """Values of expressions, with what they do."""

    def __init__(self, machine: Machine, frame: dict[str, object]) -> None:
        self.machine, self.frame = machine, frame

    def value(self, node: c_ast.Node) -> object:
        """What an expression is."""
        if node.coord is not None:
            self.machine.visited.add(at(node))
        return getattr(self, f"value_{type(node).__name__}", self.no_value)(node)

    def no_value(self, node: c_ast.Node) -> object:
        """A node that is no expression of the subset."""
        raise NotReplayed(type(node).__name__)

    def value_Constant(self, node: c_ast.Constant) -> object:
        return constant(node)

    def value_ID(self, node: c_ast.ID) -> object:
        if node.name in self.frame:
            return self.frame[node.name]
        if node.name in STATICS:
            return Object(STATICS.index(node.name))
        return self.machine.slot(node.name, node.name, {at(node)})

    def value_StructRef(self, node: c_ast.StructRef) -> object:
        key, name, places = self.field(node)
        return self.machine.slot(key, name, places)

    def field(self, node: c_ast.StructRef) -> tuple[object, str, set[tuple[int, int]]]:
        """A slot of an object: which, how it is called, and the places at which a step may stand for it."""
        base = self.value(node.name)
        if not isinstance(base, Object):
            raise NotReplayed("a field of what is no object")
        line, column = at(node.field)
        arrow = self.machine.lines[line - 1].rfind("->", 0, column - 1) + 1
        called = self.machine.names.get(base.number, "object")
        name = source_words(f"{called}->{node.field.name}")
        return (base, node.field.name), name, {at(node), (line, column), (line, arrow)}

    def value_Assignment(self, node: c_ast.Assignment) -> object:
        target = node.lvalue
        if isinstance(target, c_ast.StructRef):
            key, name, places = self.field(target)
        value = self.value(node.rvalue)
        if node.op != "=":
            value = arithmetic(node.op[:-1], self.value(target), value)
        if isinstance(target, c_ast.ID) and target.name in self.frame:
            self.assign(target.name, value)
        elif isinstance(target, c_ast.ID):
            self.machine.store(target.name, target.name, {at(target)}, value)
        elif isinstance(target, c_ast.StructRef):
            self.machine.store(key, name, places, value)
        else:
            raise NotReplayed("a store elsewhere")
        return value

    def assign(self, name: str, value: object) -> None:
        """Sets a local."""
        self.frame[name] = value
        self.machine.name_object(name, value)

    def value_FuncCall(self, node: c_ast.FuncCall) -> object:
        name = node.name.name if isinstance(node.name, c_ast.ID) else None
        if name is None:
            raise NotReplayed("a call through a pointer")
        arguments = [self.value(e) for e in (node.args.exprs if node.args else [])]
        if name in self.machine.definitions:
            return self.call_function(name, arguments)
        return self.machine.call(name, at(node.name), arguments)

    def value_UnaryOp(self, node: c_ast.UnaryOp) -> object:
        if node.op == "&":
            return TEXT if not isinstance(node.expr, c_ast.ID) else ("address", node.expr.name)
        if node.op in ("++", "--", "p++", "p--"):
            before = self.value(node.expr)
            after = arithmetic(node.op[-1], before, 1)
            self.value_Assignment(c_ast.Assignment("=", node.expr, c_ast.Constant("int", str(after)), node.coord))
            return before if node.op[0] == "p" else after
        value = self.value(node.expr)
        if node.op == "!":
            return int(value == 0)
        return arithmetic("-", 0, value) if node.op == "-" else value

    def value_BinaryOp(self, node: c_ast.BinaryOp) -> object:
        left = self.value(node.left)
        if node.op in ("&&", "||"):
            if (left != 0) == (node.op == "||"):
                return int(left != 0)
            return int(self.value(node.right) != 0)
        return arithmetic(node.op, left, self.value(node.right))

    def value_TernaryOp(self, node: c_ast.TernaryOp) -> object:
        return self.value(node.iftrue if self.value(node.cond) != 0 else node.iffalse)

    def value_Cast(self, node: c_ast.Cast) -> object:
        return self.value(node.expr)

    def value_ExprList(self, node: c_ast.ExprList) -> object:
        return [self.value(e) for e in node.exprs][-1]

    def call_function(self, name: str, arguments: list[object]) -> object:
        """A call of a function of the text."""
        raise NotReplayed(name)
