"""One function of a module while it is translated."""

from __future__ import annotations

from dataclasses import dataclass

from pycparser import c_ast

from ...model import Assumption, Place
from ..text.rows_used import Effect
from ..text.subset import Expr, Stmt
from ..text.text_state import TextState
from ..types.c_types import CType, FunctionType
from ..types.constants import constant
from ..types.kinds import Kind
from .handlers import EXPRESSIONS, STATEMENTS
from .values import Cannot, Value, Variable


@dataclass
class Frame:
    """A call whose body is translated in its place."""

    name: str
    #: The label after the body, to which a `return` goes.
    end: str
    #: The variable that gets what is returned, where the caller wants it.
    result: Variable | None
    is_left_early: bool = False


class Translation:
    """The state of a translation: names, assumptions and calls so far."""

    def __init__(self, state: TextState, node: c_ast.FuncDef) -> None:
        self.state = state
        self.module = state.module
        self.kinds = state.kinds
        self.types = state.module.types
        self.node = node
        self.name: str = node.decl.name
        #: The function that is printed; `name` is that of a callee whose body stands in place of its call.
        self.whole_name: str = self.name
        self.scopes: list[dict[str, Variable]] = [{}]
        self.assumptions: list[Assumption] = []
        self.calls: list[str] = []
        #: The functions of the module whose calls stay calls, and those whose rows do whatever they do: what their
        #: texts rest on, this one rests on.
        self.kept: list[str] = []
        self.through: list[str] = []
        #: The parameters and locals by their printed names.
        self.variables: dict[str, Variable] = {}
        #: The reads of elements whose reference goes to the variable that they are read into.
        self.moved: set[int] = set()
        #: The calls whose bodies are being translated in place, innermost last.
        self.frames: list[Frame] = []
        self.number_count = 0
        signature = self.types.of(node.decl.type)
        assert isinstance(signature, FunctionType)
        self.signature = signature

    def place(self, node: c_ast.Node | None) -> Place | None:
        """Where a node stands in the source."""
        coord = node.coord if node is not None else None
        return Place(coord.file, coord.line, coord.column or 1) if coord is not None else None

    def assume(self, name: str, detail: str, node: c_ast.Node | None) -> None:
        """Notes an assumption."""
        place = self.place(node) or self.place(self.node.decl)
        assert place is not None
        found = Assumption(name, detail, place)
        if found not in self.assumptions:
            self.assumptions.append(found)

    def value(self, node: c_ast.Node) -> Value:
        """The translated expression."""
        handler = EXPRESSIONS.get(type(node))
        if handler is None:
            raise Cannot("expression " + type(node).__name__)
        return handler(self, node)

    def statement(self, node: c_ast.Node) -> list[Stmt]:
        """The translated statement."""
        handler = STATEMENTS.get(type(node), STATEMENTS[c_ast.Node])
        return handler(self, node)

    def constant(self, node: c_ast.Node) -> int | None:
        """The value of a constant expression."""
        return constant(node, self.types)

    def generic(self, result: str, effects: list[Effect] | None = None) -> Expr:
        """Any value of a sort, after the effects."""
        return self.state.rows.generic(result, effects or [])

    def lookup(self, name: str) -> Variable | None:
        """The parameter or local of this name."""
        for scope in reversed(self.scopes):
            if name in scope:
                return scope[name]
        return None

    def declare(self, name: str, variable: Variable) -> None:
        """Enters a local into the innermost scope."""
        self.scopes[-1][name] = variable
        if variable.is_printed:
            self.variables[variable.name] = variable
        for printed, kind in (variable.members or {}).values():
            self.variables[printed] = Variable(printed, kind, self.kind(kind))

    def printed_name(self, name: str) -> str:
        """A name that no function, row, type or global of the text has, nor another local of the function."""
        while name in self.state.reserved or name.startswith("pungi_"):
            name += "_"
        wanted, number = name, 1
        while name in self.variables or name in self.state.reserved:
            number += 1
            name = "%s_%d" % (wanted, number)
        return name

    def new_label(self, name: str) -> str:
        """A label that no other of the function has."""
        return "%s_end_%d" % (name, self.new_number())

    def new_number(self) -> int:
        """A number that no other thing of the function has."""
        self.number_count += 1
        return self.number_count

    def kind(self, kind: CType) -> Kind:
        """The kind of a type's values."""
        return self.kinds.of(kind)
