"""Which functions of a module stand in its types' tables, and which run once."""

from __future__ import annotations

from pycparser import c_ast

from ..reading.syntax import names_in, stripped, type_name
from .constants import constant
from .module import Module

#: The numbers of slots in a PyType_Slot table (Include/typeslots.h).
SLOT_NUMBERS = {51: "tp_clear", 52: "tp_dealloc", 60: "tp_init", 71: "tp_traverse", 74: "tp_free"}

#: The number of the slot of a module's initialiser (Include/moduleobject.h, Py_mod_exec).
EXEC_SLOT = 2


class TypeSlots:
    """The functions of types' and modules' tables by what they are for."""

    def __init__(self, module: Module) -> None:
        self.module = module
        #: For a function in a type's table: the functions in the other slots of that table.
        self.beside: dict[str, dict[str, str]] = {}
        #: Deallocators of heap types: an instance owns a reference to its type.
        self.heap_deallocators: set[str] = set()
        self.module_initialisers: set[str] = set()
        self.object_initialisers: set[str] = set()
        for node in module.tables():
            self._read(node)
        self._add_callees()

    def _read(self, node: c_ast.Decl) -> None:
        word = type_name(node.type)
        if word == "PyModuleDef_Slot":
            for number, name in self._pairs(node.init):
                if number == EXEC_SLOT:
                    self.module_initialisers.add(name)
        elif word == "PyType_Slot":
            table = {SLOT_NUMBERS[number]: name for number, name in self._pairs(node.init) if number in SLOT_NUMBERS}
            if "tp_dealloc" in table:
                self.heap_deallocators.add(table["tp_dealloc"])
            self._enter(table)
        elif word in ("PyTypeObject", "_typeobject"):
            self._enter(self._type_table(node.init))

    def _enter(self, table: dict[str, str]) -> None:
        for slot, name in table.items():
            self.beside.setdefault(name, {}).update(table)
            if slot == "tp_init":
                self.object_initialisers.add(name)

    def _function(self, node: c_ast.Node) -> str | None:
        node = stripped(node)
        if isinstance(node, c_ast.UnaryOp) and node.op == "&":
            node = stripped(node.expr)
        return node.name if isinstance(node, c_ast.ID) and node.name in self.module.functions else None

    def _pairs(self, table: c_ast.InitList) -> list[tuple[int, str]]:
        """The rows `{number, function}` of a table of slots."""
        found = []
        for row in table.exprs or ():
            values = [item.expr if isinstance(item, c_ast.NamedInitializer) else item
                      for item in (row.exprs or () if isinstance(row, c_ast.InitList) else ())]
            if len(values) == 2:
                number, name = constant(stripped(values[0]), self.module.types), self._function(values[1])
                if number is not None and name is not None:
                    found.append((number, name))
        return found

    def _type_table(self, table: c_ast.InitList) -> dict[str, str]:
        """The functions of a type object, by the slots that they stand in."""
        slots = [member[0] for member in self.module.types.members("_typeobject")]
        found, at = {}, 0
        for item in table.exprs or ():
            if isinstance(item, c_ast.NamedInitializer):
                word = item.name[0].name if isinstance(item.name[0], c_ast.ID) else ""
                at = slots.index(word) if word in slots else at
                item = item.expr
            name = self._function(item)
            if name is not None and at < len(slots):
                found[slots[at] or ""] = name
            at += 1
        return found

    def _add_callees(self) -> None:
        """What only initialisers call, and no table names, is an initialiser too."""
        callers: dict[str, set[str]] = {}
        for name, node in self.module.functions.items():
            for callee in names_in(node.body):
                callers.setdefault(callee, set()).add(name)
        in_tables = self.module.names_in_tables()
        self.module_initialisers |= {name for name in self.module.functions if name.startswith("PyInit_")}
        for found in (self.module_initialisers, self.object_initialisers):
            changed = True
            while changed:
                more = {name for name in self.module.functions
                        if name not in found and name not in in_tables
                        and callers.get(name, set()) - {name} and callers[name] - {name} <= found}
                found |= more
                changed = bool(more)
