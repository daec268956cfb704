"""The declarations of a module: its functions, prototypes, globals and types."""

from __future__ import annotations

from dataclasses import dataclass
from functools import cached_property

from pycparser import c_ast

from ..reading.parse import ParsedFile
from ..reading.syntax import below, called_name, names_in
from .c_types import CType, FunctionType, Pointer, Struct
from .kinds import Kind, Kinds
from .type_table import TypeTable


#: Calls that return a module's state.
STATE_CALLS = frozenset("PyModule_GetState _PyModule_GetState PyType_GetModuleState _PyType_GetModuleState".split())


@dataclass(frozen=True)
class Global:
    """A variable at file level."""

    type: CType
    is_own: bool
    node: c_ast.Decl


class Module:
    """What a parsed file declares."""

    def __init__(self, parsed: ParsedFile) -> None:
        self.parsed = parsed
        self.types = TypeTable()
        self.kinds = Kinds(self.types, parsed.is_own)
        self.functions: dict[str, c_ast.FuncDef] = {}
        self.prototypes: dict[str, c_ast.FuncDecl] = {}
        self.globals: dict[str, Global] = {}
        #: Functions whose bodies do not parse, with their declarations.
        self.unparsed: dict[str, c_ast.Decl] = {}
        self._object_fields: frozenset[str] | None = None
        for node in parsed.tree.ext:
            self._enter(node)

    def _enter(self, node: c_ast.Node) -> None:
        if isinstance(node, c_ast.Typedef):
            self.types.add_typedef(node)
        elif isinstance(node, c_ast.FuncDef):
            self.types.add(node.decl.type)
            self.prototypes[node.decl.name] = node.decl.type
            if self.is_own(node.decl):
                self.functions.setdefault(node.decl.name, node)
        elif isinstance(node, c_ast.Decl):
            self._enter_declaration(node)

    def _enter_declaration(self, node: c_ast.Decl) -> None:
        self.types.add(node.type)
        if isinstance(node.type, c_ast.FuncDecl):
            self.prototypes.setdefault(node.name, node.type)
            if self.is_own(node) and self._is_dropped(node):
                self.unparsed[node.name] = node
        elif node.name and not (node.name in self.globals and node.init is None):
            self.globals[node.name] = Global(self.types.of(node.type), self.is_own(node), node)

    def _is_dropped(self, node: c_ast.Decl) -> bool:
        """A body that does not parse begins on the declaration's line or within a few lines after it."""
        return any(file == node.coord.file and node.coord.line <= line <= node.coord.line + 8
                   for file, line in self.parsed.dropped)

    def is_own(self, node: c_ast.Node) -> bool:
        """The declaration stands in a file of the module."""
        return node.coord is not None and self.parsed.is_own(node.coord.file)

    def signature(self, name: str) -> FunctionType | None:
        """The type of a function that is declared."""
        node = self.prototypes.get(name)
        found = self.types.of(node) if node is not None else None
        return found if isinstance(found, FunctionType) else None

    def object_fields(self) -> frozenset[str]:
        """The names of the fields for objects in the module's structs."""
        if self._object_fields is None:
            found = set()
            for info in self.types.structs.values():
                if self.parsed.is_own(info.file):
                    found |= {name for name, node, _ in info.members
                              if name and self.kinds.of(self.types.of(node)) == Kind.OBJECT}
            self._object_fields = frozenset(found)
        return self._object_fields

    @cached_property
    def state_structs(self) -> frozenset[str]:
        """The structs of modules' states: those that functions which ask for one name in a cast or declaration."""
        found: set[str] = set()
        for function in self.functions.values():
            nodes = below(function.body)
            if any(called_name(node) in STATE_CALLS for node in nodes):
                named = [node.to_type for node in nodes if isinstance(node, c_ast.Cast)]
                named += [node.type for node in nodes if isinstance(node, c_ast.Decl)]
                kinds = [self.types.of(node) for node in named]
                signature = self.types.of(function.decl.type)
                kinds += [signature.result] if isinstance(signature, FunctionType) else []
                found |= {kind.target.key for kind in kinds
                          if isinstance(kind, Pointer) and isinstance(kind.target, Struct)}
        return frozenset(found)

    def is_memory_struct(self, kind: CType) -> bool:
        """A pointer to a struct of the module that has fields for objects, no count, and is no module's state."""
        return (isinstance(kind, Pointer) and isinstance(kind.target, Struct) and self.kinds.is_state(kind.target.key)
                and kind.target.key not in self.state_structs)

    def tables(self) -> list[c_ast.Decl]:
        """The module's variables with an initialiser in braces."""
        return [known.node for known in self.globals.values()
                if known.is_own and isinstance(known.node.init, c_ast.InitList)]

    def names_in_tables(self) -> set[str]:
        """What the module's tables name."""
        return set().union(*(names_in(node.init) for node in self.tables())) if self.tables() else set()
