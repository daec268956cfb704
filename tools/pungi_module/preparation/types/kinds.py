"""The kinds of values that the printed text has, and the kind of each type of C."""

from __future__ import annotations

import re
from enum import Enum
from typing import Callable

from .c_types import Array, CType, InUnion, Number, Pointer, Struct, Void
from .type_table import TypeTable


class Kind(Enum):
    """The kind of a value."""

    #: A pointer to an object, or to a struct of the module that has object fields, or to an array of objects.
    OBJECT = "object"
    #: Any other pointer: only whether it is NULL is kept.
    TEXT = "text"
    INT = "int"
    LONG = "long"
    SIZE = "size"
    VOID = "void"
    #: A floating number or a struct: its value is not kept.
    OPAQUE = "opaque"

    @property
    def is_number(self) -> bool:
        """An `int`, a `long` or a `Py_ssize_t`."""
        return self in (Kind.INT, Kind.LONG, Kind.SIZE)

    @property
    def is_kept(self) -> bool:
        """A variable or field of this kind stands in the printed text."""
        return self.is_number or self in (Kind.OBJECT, Kind.TEXT)

    @property
    def number_word(self) -> str:
        """The word of a row that returns any number of this kind."""
        return "int" if self == Kind.INT else "long"


#: How many slots of an array of objects are kept apart: the elements with a constant index below this.
ARRAY_SLOTS = 12

#: The struct that stands for an array of objects.
ARRAY_TAG = "pungi_array"

#: The struct through which an object's reference to its type is a field.
HEAD_TAG = "pungi_head"

#: The printed words of the kinds besides objects.
WORDS = {Kind.TEXT: "char *", Kind.INT: "int ", Kind.LONG: "long ", Kind.SIZE: "Py_ssize_t "}

HEAD_KEYS = ("_object", "_typeobject", "PyVarObject")


class Kinds:
    """The kinds of a file's types."""

    def __init__(self, types: TypeTable, is_own: Callable[[str | None], bool]) -> None:
        self.types = types
        self.is_own = is_own
        self._counted: dict[str, bool] = {}

    def of(self, kind: CType) -> Kind:
        """The kind of a type's values."""
        if isinstance(kind, InUnion):
            kind = kind.member
        if isinstance(kind, Number):
            return {"int": Kind.INT, "long": Kind.LONG, "size": Kind.SIZE}[kind.word]
        if isinstance(kind, Void):
            return Kind.VOID
        if isinstance(kind, Pointer):
            if self.is_objects(kind) or isinstance(kind.target, Struct) and self.has_slots(kind.target.key):
                return Kind.OBJECT
            return Kind.TEXT
        return Kind.TEXT if isinstance(kind, Array) else Kind.OPAQUE

    def is_object_struct(self, key: str, seen: tuple[str, ...] = ()) -> bool:
        """A struct that begins with PyObject, directly or by its first member."""
        if key in ("_object", "_typeobject"):
            return True
        members = self.types.members(key)
        if not members or key in seen or self.types.structs[key].is_union:
            return False
        first = self.types.of(members[0][1])
        return isinstance(first, Struct) and self.is_object_struct(first.key, seen + (key,))

    def is_state(self, key: str, seen: tuple[str, ...] = ()) -> bool:
        """A struct of the module that is no object and has fields for objects, such as a module's state."""
        if not seen and key in self._counted:
            return self._counted[key]
        info = self.types.structs.get(key)
        found = False
        if info and key not in seen and not info.is_union and self.is_own(info.file) and not self.is_object_struct(key):
            for _, node, _ in info.members:
                member = self.types.of(node)
                member = member.element if isinstance(member, Array) else member
                if self.is_python_object(member):
                    found = True
                elif isinstance(member, Struct) and self.is_state(member.key, seen + (key,)):
                    found = True
        if not seen:
            self._counted[key] = found
        return found

    def has_slots(self, key: str) -> bool:
        """Pointers to this struct are kept as objects."""
        return self.is_object_struct(key) or self.is_state(key)

    def is_python_object(self, kind: CType) -> bool:
        """A pointer to an object of Python's."""
        return isinstance(kind, Pointer) and isinstance(kind.target, Struct) and self.is_object_struct(kind.target.key)

    def is_objects(self, kind: CType) -> bool:
        """A pointer to pointers to objects."""
        return isinstance(kind, Pointer) and self.is_python_object(kind.target)

    def is_uncounted(self, kind: CType) -> bool:
        """Kept as an object, although it has no count: a state or an array of objects."""
        return self.of(kind) == Kind.OBJECT and not self.is_python_object(kind)

    def tag(self, kind: CType) -> str | None:
        """The printed struct that a pointer points to; none for a plain object or type."""
        if self.is_objects(kind):
            return ARRAY_TAG
        if not isinstance(kind, Pointer) or not isinstance(kind.target, Struct) or not self.has_slots(kind.target.key):
            return None
        key = kind.target.key
        if key in HEAD_KEYS:
            return None
        return "pungi_" + re.sub(r"\W", "_", self.types.names.get(key, key))

    def words(self, kind: CType) -> str:
        """The printed words of a type, up to the name that they declare."""
        value = self.of(kind)
        if value != Kind.OBJECT:
            return WORDS.get(value, "void ")
        tag = self.tag(kind)
        if tag is not None:
            return "struct %s *" % tag
        return "PyTypeObject *" if kind == Pointer(Struct("_typeobject")) else "PyObject *"
