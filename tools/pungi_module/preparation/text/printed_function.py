"""A function of the printed text, and what its callers know of those that are finished."""

from __future__ import annotations

from collections.abc import Iterator
from dataclasses import dataclass, field

from ...model import Assumption, OwnConvention, Place
from ..translation.values import Variable
from .subset import Arrow, Assign, Block, Name, walk


@dataclass
class PrintedFunction:
    """A translated function."""

    name: str
    place: Place
    result: str
    parameters: list[tuple[str, str]]
    body: Block
    assumptions: list[Assumption]
    calls: list[str]
    #: The parameters and locals by their printed names.
    variables: dict[str, Variable]
    #: The functions of the module whose calls stay calls, and those whose rows do whatever they do.
    kept: list[str] = field(default_factory=list)
    through: list[str] = field(default_factory=list)
    #: The numbers, from 1, of its parameters in the source, by their printed names.
    numbers: dict[str, int] = field(default_factory=dict)
    #: Its result is a borrowed reference.
    is_lent: bool = False
    #: The parameters whose reference it takes over, by their printed names.
    taken: tuple[str, ...] = ()
    #: The line of the source on which all of it stands, where it is from an included file.
    line: int | None = None

    def parameters_in_source(self) -> tuple[int, ...]:
        """The numbers of its parameters in the source."""
        return tuple(self.numbers[name] for _, name in self.parameters)

    def convention(self) -> OwnConvention | None:
        """What it does with references besides what all functions do, if it does."""
        takes = tuple(number for number, (_, name) in enumerate(self.parameters, 1) if name in self.taken)
        return OwnConvention(self.is_lent, takes) if self.is_lent or takes else None


@dataclass
class Finished:
    """The functions that are finished, callees before their callers."""

    functions: dict[str, PrintedFunction] = field(default_factory=dict)
    #: How many functions deep the calls go that stay calls, the function among them.
    depths: dict[str, int] = field(default_factory=dict)
    #: The fields, as `->field`, and globals that a function and its callees store objects into.
    stored: dict[str, frozenset[str]] = field(default_factory=dict)
    #: The fields, globals and locals that they name.
    named: dict[str, frozenset[str]] = field(default_factory=dict)

    def add(self, function: PrintedFunction) -> None:
        """Adds a function. It rests on what its callees rest on."""
        name, kept = function.name, function.kept
        for callee in kept + function.through:
            function.assumptions += [one for one in self.functions[callee].assumptions
                                     if one not in function.assumptions]
        self.functions[name] = function
        self.depths[name] = 1 + max((self.depths[callee] for callee in kept), default=0)
        stored = {bare(node.slot) for node in walk(function.body) if isinstance(node, Assign) and node.slot}
        self.stored[name] = frozenset(stored).union(*(self.stored[callee] for callee in kept))
        self.named[name] = frozenset(named_in(function.body)).union(*(self.named[callee] for callee in kept))


def named_in(body: Block) -> Iterator[str]:
    """The fields and variables that a body names."""
    for node in walk(body):
        if isinstance(node, (Arrow, Name)):
            yield node.member if isinstance(node, Arrow) else node.text


def bare(slot: str) -> str:
    """`->field` of a slot that is a field of a variable; a global as it is."""
    _, arrow, member = slot.partition("->")
    return arrow + member if arrow else slot
