"""What the functions of one prepared text share: rows, structs with their fields, globals and type objects."""

from __future__ import annotations

from dataclasses import dataclass, field

from ...model import Row
from ..options import Options
from ..types.c_types import CType, Pointer, Struct
from ..types.kinds import HEAD_TAG, Kinds
from ..types.module import Module
from ..types.type_slots import TypeSlots
from .known_names import RESERVED
from .printed_function import Finished
from .rows_used import RowsUsed


@dataclass
class TextState:
    """A prepared text while it is made."""

    module: Module
    slots: TypeSlots
    #: The rows of the API's manual, and of what else the caller knows.
    api: dict[str, Row]
    options: Options
    #: Functions that do not stand in the text, with the reason.
    refused: dict[str, str]
    rows: RowsUsed = field(init=False)
    #: For a struct's key: its printed fields with their types.
    fields: dict[str, dict[str, CType]] = field(default_factory=dict)
    #: The printed structs, by tag, with their keys.
    structs: dict[str, str | None] = field(default_factory=dict)
    globals: dict[str, CType] = field(default_factory=dict)
    type_objects: set[str] = field(default_factory=set)
    module_tables: set[str] = field(default_factory=set)
    #: Whether functions store objects into fields or globals, as far as that was asked.
    changing: dict[str, bool] = field(default_factory=dict)
    #: Whether nothing happens to objects in functions that are finished, as far as that was asked.
    quiet: dict[str, bool] = field(default_factory=dict)
    #: Functions that grow too large where the bodies of their callees stand in place.
    without_bodies: set[str] = field(default_factory=set)
    #: Functions whose calls of the module's functions do not stay calls.
    without_calls: set[str] = field(default_factory=set)
    #: The functions that are translated so far.
    finished: Finished = field(default_factory=Finished)
    #: Functions with too many locals: only those for objects are kept.
    without_numbers: set[str] = field(default_factory=set)
    #: Names that no local may have.
    reserved: set[str] = field(init=False)

    def __post_init__(self) -> None:
        module = self.module
        own = {name for name, known in module.globals.items() if known.is_own}
        self.without_numbers |= self.options.numberless
        self.rows = RowsUsed(set(module.functions) | own | set(module.unparsed))
        self.reserved = set(RESERVED) | set(module.functions) | set(module.prototypes) | set(module.globals)

    @property
    def kinds(self) -> Kinds:
        """The kinds of the file's types."""
        return self.module.kinds

    def use_struct(self, kind: CType) -> None:
        """The printed text names the struct that a pointer points to."""
        tag = self.kinds.tag(kind)
        if tag is not None and isinstance(kind, Pointer):
            self.structs[tag] = kind.target.key if isinstance(kind.target, Struct) else None

    def use_head(self) -> None:
        """The printed text names an object's reference to its type."""
        self.structs[HEAD_TAG] = None

    def use_field(self, key: str, name: str, kind: CType) -> None:
        """The printed text names a field."""
        self.fields.setdefault(key, {})[name] = kind
        self.use_struct(Pointer(Struct(key)))
        self.use_struct(kind)

    def use_global(self, name: str, kind: CType) -> None:
        """The printed text names a global."""
        self.globals[name] = kind
        self.use_struct(kind)

    def is_declared_borrowed(self, key: str, name: str) -> bool:
        """The author declares that a struct's field holds no reference of its own."""
        return (self.module.types.names.get(key, key), name) in self.options.borrowed_fields

    def stands_in_text(self, name: str) -> bool:
        """A function of the file that is printed."""
        return name in self.module.functions and name not in self.refused
