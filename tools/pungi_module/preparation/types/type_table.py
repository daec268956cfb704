"""The typedefs, structs and enumerators of a parsed file."""

from __future__ import annotations

from dataclasses import dataclass, field

from pycparser import c_ast

from .c_types import (BOOL, CHAR, INT, LONG, OTHER, SIZE, UNSIGNED_INT, UNSIGNED_LONG, VOID, Array, CType, FunctionType,
    InUnion, Number, Pointer, Struct)
from .constants import constant

#: How deep members without a name are followed.
UNNAMED_LIMIT = 4


@dataclass
class StructInfo:
    """A struct or union: its members in order, with their declarations, and where it is declared."""

    is_union: bool
    file: str
    members: list[tuple[str | None, c_ast.Node, bool]] = field(default_factory=list)


class TypeTable:
    """What the file's types are."""

    def __init__(self) -> None:
        self.typedefs: dict[str, c_ast.Node] = {}
        self.structs: dict[str, StructInfo] = {}
        self.enumerators: dict[str, int | None] = {}
        #: The typedef names of structs without a tag.
        self.names: dict[str, str] = {}
        self._known: dict[int, tuple[CType, c_ast.Node]] = {}

    def add(self, node: c_ast.Node) -> None:
        """Enters the structs and enumerators that are declared in a type."""
        if isinstance(node, (c_ast.Struct, c_ast.Union)):
            self._add_struct(node)
        elif isinstance(node, c_ast.Enum):
            self._add_enum(node)
        elif isinstance(node, (c_ast.PtrDecl, c_ast.ArrayDecl, c_ast.TypeDecl, c_ast.Typename, c_ast.Decl)):
            if node.type is not None:
                self.add(node.type)
        elif isinstance(node, c_ast.FuncDecl):
            self.add(node.type)
            for parameter in node.args.params if node.args else ():
                if isinstance(parameter, (c_ast.Decl, c_ast.Typename)):
                    self.add(parameter.type)

    def add_typedef(self, node: c_ast.Typedef) -> None:
        """Enters a typedef."""
        self.typedefs[node.name] = node.type
        self.add(node.type)
        inner = node.type.type if isinstance(node.type, c_ast.TypeDecl) else None
        if isinstance(inner, c_ast.Struct) and inner.name is None:
            self.names[struct_key(inner)] = node.name

    def _add_struct(self, node: c_ast.Struct | c_ast.Union) -> None:
        key = struct_key(node)
        if node.decls is None or key in self.structs:
            return
        info = StructInfo(isinstance(node, c_ast.Union), node.coord.file if node.coord else "")
        self.structs[key] = info
        for declaration in node.decls:
            if isinstance(declaration, c_ast.Decl):
                self.add(declaration.type)
                info.members.append((declaration.name, declaration.type, declaration.bitsize is not None))

    def _add_enum(self, node: c_ast.Enum) -> None:
        value: int | None = -1
        for enumerator in node.values.enumerators if node.values else ():
            if enumerator.value is not None:
                value = constant(enumerator.value, self)
            elif value is not None:
                value += 1
            self.enumerators[enumerator.name] = value

    def of(self, node: c_ast.Node) -> CType:
        """The type that a declaration or a type's name denotes."""
        known = self._known.get(id(node))
        if known is None:
            known = self._known[id(node)] = (self._of(node), node)
        return known[0]

    def _of(self, node: c_ast.Node) -> CType:
        if isinstance(node, (c_ast.TypeDecl, c_ast.Typename, c_ast.Decl)):
            return self.of(node.type)
        if isinstance(node, c_ast.IdentifierType):
            return self.of_words(node.names)
        if isinstance(node, c_ast.PtrDecl):
            return Pointer(self.of(node.type))
        if isinstance(node, c_ast.ArrayDecl):
            length = constant(node.dim, self) if node.dim is not None else None
            return Array(self.of(node.type), length)
        if isinstance(node, c_ast.FuncDecl):
            return self._of_function(node)
        if isinstance(node, (c_ast.Struct, c_ast.Union)):
            self.add(node)
            return Struct(struct_key(node))
        if isinstance(node, c_ast.Enum):
            self.add(node)
            return INT
        return OTHER

    def _of_function(self, node: c_ast.FuncDecl) -> FunctionType:
        parameters, variadic = [], False
        for parameter in node.args.params if node.args else ():
            if isinstance(parameter, c_ast.EllipsisParam):
                variadic = True
            else:
                parameters.append(INT if isinstance(parameter, c_ast.ID) else self.of(parameter.type))
        if parameters == [VOID]:
            parameters = []
        return FunctionType(self.of(node.type), tuple(parameters), variadic)

    def of_words(self, names: list[str]) -> CType:
        """The type of base words or of a typedef's name."""
        if len(names) == 1 and names[0] in ("Py_ssize_t", "ssize_t"):
            return SIZE
        if len(names) == 1 and names[0] in self.typedefs:
            return self.of(self.typedefs[names[0]])
        words = set(names)
        if "void" in words:
            return VOID
        if words & {"double", "float", "_Complex"}:
            return OTHER
        if "_Bool" in words:
            return BOOL
        signed = "unsigned" not in words
        if "char" in words:
            return CHAR if signed else Number("int", False, 8)
        if "short" in words:
            return Number("int", signed, 16)
        if "long" in words:
            return LONG if signed else UNSIGNED_LONG
        if words & {"int", "unsigned", "signed"}:
            return INT if signed else UNSIGNED_INT
        return OTHER

    def members(self, key: str) -> list[tuple[str | None, c_ast.Node, bool]]:
        """The members of a struct, none where it is only declared."""
        return self.structs[key].members if key in self.structs else []

    def member(self, key: str, name: str, depth: int = 0) -> CType | None:
        """The type of a member, also of one of a member without a name."""
        for member, node, is_bits in self.members(key):
            if member == name:
                found = Number("int", True, 16) if is_bits else self.of(node)
                return InUnion(found) if self.structs[key].is_union else found
            if member is None and depth < UNNAMED_LIMIT:
                inner = self.of(node)
                found = self.member(inner.key, name, depth + 1) if isinstance(inner, Struct) else None
                if found is not None:
                    return found
        return None

    def path(self, key: str, names: tuple[str, ...]) -> CType | None:
        """The type of the member that a path of members by value leads to."""
        found: CType = Struct(key)
        in_union = False
        for name in names:
            if isinstance(found, InUnion):
                found, in_union = found.member, True
            step = self.member(found.key, name) if isinstance(found, Struct) else None
            if step is None:
                return None
            found = step
        return InUnion(found) if in_union and not isinstance(found, InUnion) else found


def struct_key(node: c_ast.Struct | c_ast.Union) -> str:
    """The key of a struct: its tag, or a word of its own."""
    key = node.name or "unnamed%d" % id(node)
    return "union " + key if isinstance(node, c_ast.Union) else key
