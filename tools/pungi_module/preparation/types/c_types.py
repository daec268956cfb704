"""The types of C, as far as they matter to the preparation."""

from __future__ import annotations

from dataclasses import dataclass


@dataclass(frozen=True)
class CType:
    """A type."""


@dataclass(frozen=True)
class Void(CType):
    """`void`."""


@dataclass(frozen=True)
class Other(CType):
    """A type whose values are not kept: a floating number, or one that is not known."""


@dataclass(frozen=True)
class Number(CType):
    """An integer type: the word that its values are printed with, and its range."""

    word: str
    signed: bool
    bits: int

    @property
    def bounds(self) -> tuple[int, int]:
        """The least and the greatest value."""
        if self.signed:
            return -2 ** (self.bits - 1), 2 ** (self.bits - 1) - 1
        return 0, 2 ** self.bits - 1

    @property
    def is_natural(self) -> bool:
        """An `int`, `long` or `Py_ssize_t`, which the program reads as it is."""
        return self.signed and self.bits >= 32

    def holds(self, other: "Number") -> bool:
        """Each value of the other type is one of this."""
        low, high = self.bounds
        return low <= other.bounds[0] and other.bounds[1] <= high


@dataclass(frozen=True)
class Pointer(CType):
    """A pointer."""

    target: CType


@dataclass(frozen=True)
class Array(CType):
    """An array, with its length where that is known."""

    element: CType
    length: int | None = None


@dataclass(frozen=True)
class Struct(CType):
    """A struct or union, under the key of `TypeTable.structs`."""

    key: str


@dataclass(frozen=True)
class FunctionType(CType):
    """A function's type."""

    result: CType
    parameters: tuple[CType, ...]
    variadic: bool = False


@dataclass(frozen=True)
class InUnion(CType):
    """The type of a member that shares its place with others: it is read as any value, and stored nowhere."""

    member: CType


VOID = Void()
OTHER = Other()
BOOL = Number("int", False, 1)
INT = Number("int", True, 32)
LONG = Number("long", True, 64)
SIZE = Number("size", True, 64)
UNSIGNED_INT = Number("long", False, 32)
UNSIGNED_LONG = Number("long", False, 64)
CHAR = Number("int", True, 8)
TEXT = Pointer(CHAR)
OBJECT = Pointer(Struct("_object"))
TYPE_OBJECT = Pointer(Struct("_typeobject"))
OBJECTS = Pointer(OBJECT)


def decayed(kind: CType) -> CType:
    """The type of a value: an array or a function stands for a pointer to it (C11 6.3.2.1)."""
    if isinstance(kind, Array):
        return Pointer(kind.element)
    if isinstance(kind, FunctionType):
        return Pointer(kind)
    return kind


def pointee(kind: CType) -> CType:
    """What `*p` has as its type."""
    kind = decayed(kind)
    return kind.target if isinstance(kind, Pointer) else OTHER


def common(left: CType, right: CType) -> CType:
    """The type of an arithmetic operator's result (C11 6.3.1.8)."""
    if not isinstance(left, Number) or not isinstance(right, Number):
        return OTHER if OTHER in (left, right) else LONG
    left = INT if left.bits < 32 else left
    right = INT if right.bits < 32 else right
    if left.bits != right.bits:
        return left if left.bits > right.bits else right
    if not left.signed:
        return left
    if not right.signed:
        return right
    return LONG if left.bits == 64 else INT
