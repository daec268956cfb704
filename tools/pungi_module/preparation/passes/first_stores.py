"""Which slots hold nothing before the first store into them."""

from __future__ import annotations

import re

from pycparser import c_ast

from ..calls.freed import MAKING_CALLS
from ..reading.syntax import below, called_name, stripped
from ..text.text_state import TextState
from ..translation.directions import Direction, direction
from ..translation.functions import parameter_nodes
from ..translation.values import Variable
from ..types.c_types import Pointer, Struct
from ..types.kinds import Kind

#: Names of functions that make what they return.
MAKER = re.compile(r"PyObject_Call|New|new|alloc|Alloc|create")


def is_maker(node: c_ast.Node | None) -> bool:
    """The call makes an object, but not here: its fields are whatever the maker put there."""
    name = called_name(stripped(node)) if node is not None else None
    return name is not None and name not in MAKING_CALLS and bool(MAKER.search(name))


def made_locals(node: c_ast.FuncDef) -> set[str]:
    """The locals that get a new object from a call."""
    found: set[str] = set()
    for item in below(node.body):
        name, source = None, None
        if isinstance(item, c_ast.Assignment) and item.op == "=" and isinstance(item.lvalue, c_ast.ID):
            name, source = item.lvalue.name, item.rvalue
        elif isinstance(item, c_ast.Decl) and item.name:
            name, source = item.name, item.init
        if name is None or source is None:
            continue
        inner = stripped(source)
        if is_maker(source) or isinstance(inner, c_ast.ID) and inner.name in found:
            found.add(name)
    return found


def is_parameter(node: c_ast.FuncDef, name: str) -> bool:
    """The function has a parameter of this name."""
    return any(getattr(item, "name", None) == name for item in parameter_nodes(node))


class FirstStores:
    """The slots of one function that hold nothing before they are stored into first."""

    def __init__(self, state: TextState, node: c_ast.FuncDef, variables: dict[str, Variable]) -> None:
        self.state = state
        self.variables = variables
        name = node.decl.name
        self.is_module_initialiser = name in state.slots.module_initialisers
        self.is_object_initialiser = name in state.slots.object_initialisers and not state.options.init_twice
        self.made = made_locals(node)
        #: The slots of parameters that are stored through on some ways, and read on others.
        self.exchanged = {f"{name}->i0" for name, variable in variables.items()
                          if state.kinds.is_objects(variable.type) and is_parameter(node, name)
                          and direction(node, name) == Direction.BOTH}

    def is_global(self, name: str) -> bool:
        """A variable at file level, or a static local, for an object."""
        return name in self.state.globals and self.state.kinds.of(self.state.globals[name]) == Kind.OBJECT

    def assumption(self, slot: str) -> str:
        """The name of the assumption that the slot holds nothing."""
        base, arrow, _ = slot.partition("->")
        if slot in self.exchanged:
            return "output parameter"
        if arrow and base in self.made:
            return "new object"
        return "init runs once" if arrow or self.is_module_initialiser else "filled once"

    def is_first(self, slot: str, is_unfilled: bool) -> bool:
        """The slot, as `global` or `variable->field`, holds nothing before."""
        base, arrow, _ = slot.partition("->")
        if slot in self.exchanged:
            return True
        if not arrow:
            return (self.is_module_initialiser or is_unfilled) and self.is_global(base)
        variable = self.variables.get(base)
        if variable is None or variable.kind != Kind.OBJECT or not isinstance(variable.type, Pointer):
            return False
        if not isinstance(variable.type.target, Struct):
            return False
        if self.state.kinds.is_state(variable.type.target.key):
            return self.is_module_initialiser
        return self.is_object_initialiser or base in self.made
