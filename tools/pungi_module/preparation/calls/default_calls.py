"""Calls by a row that is made for them: of what is only declared, of pointers, and with outputs."""

from __future__ import annotations

from dataclasses import dataclass, field

from pycparser import c_ast

from ...model import Row, RowSource
from ..text.rows_used import LETTERS, PARAMETER_LIMIT, WORDS, Effect, is_harmless
from ..text.subset import NULL, ONE, ZERO, Assign, Binary, Call, Conditional, Expr, Expression, Literal, Unary, is_pure
from ..translation.conversions import effects_of, ordered
from ..translation.translation import Translation
from ..translation.values import Cannot, Value, done, kept, opaque
from ..types.c_types import INT, CType, Number
from ..types.kinds import Kind
from .outputs import OutputPlace, clear_output, output_places, set_output
from .tables import Output, WhenSet


@dataclass
class Signature:
    """What is known of a function that is called by a row made for the call."""

    name: str
    result: CType
    #: What an object result is: `new`, `borrowed` or `sure`.
    ownership: str = "new"
    #: The arguments that it takes over, from 1.
    takes: tuple[int, ...] = ()
    #: How its value says which outputs are set, where it does.
    when_set: WhenSet | None = None
    outputs: dict[int, Output] = field(default_factory=dict)
    #: The word of the row's result, where it is not that of the type.
    result_word: str | None = None
    #: The function of the source that the row stands for, where it may have a convention.
    function: str | None = None


RESULT_WORDS = {Kind.TEXT: "text", Kind.INT: "int", Kind.LONG: "long", Kind.SIZE: "long", Kind.VOID: "void"}
OWNERSHIP_WORDS = {"new": "new", "borrowed": "borrowed", "sure": "borrowed_sure", "null": "null"}


class DefaultCall:
    """A call while it is put together."""

    def __init__(self, t: Translation, node: c_ast.Node, signature: Signature, arguments: list[c_ast.Node]) -> None:
        self.t, self.node, self.signature = t, node, signature
        #: A row with fewer parameters than the call has arguments has a name of its own.
        self.count = len(arguments)
        self.effects: list[Effect] = []
        #: For each of the effects the number, from 1, of the argument that it is; 0 for what is none.
        self.numbers: list[int] = []
        #: The places in `effects`, from 1, whose reference is taken over.
        self.taken: list[int] = []
        self.outputs: list[OutputPlace] = []
        for at, argument in enumerate(arguments):
            self._argument(at, argument)
        self._limit()

    def _argument(self, at: int, argument: c_ast.Node) -> None:
        t, signature = self.t, self.signature
        found = output_places(t, self.node, signature.name, at, argument, signature.outputs.get(at))
        if found is not None:
            self.outputs += found[0]
            self._add(found[1], 0)
            return
        value = t.value(argument)
        if value.object_before is not None and at + 1 in signature.takes:
            value = value.object_before
        if value.kind == Kind.OBJECT and not value.is_null:
            self._add([(value.code, Kind.OBJECT)], at + 1)
            if at + 1 in signature.takes:
                self.taken.append(len(self.effects))
        else:
            self._add(effects_of(t, value), 0)

    def _add(self, effects: list[Effect], number: int) -> None:
        self.effects += effects
        self.numbers += [number] * len(effects)

    def _limit(self) -> None:
        """At most eight arguments: those without effects go, and then the first are put in order before the call."""
        if len(self.effects) <= PARAMETER_LIMIT:
            return
        left, taken, numbers = [], [], []
        for at, effect in enumerate(self.effects, 1):
            if at in self.taken or not is_pure(effect[0]):
                left.append(effect)
                numbers.append(self.numbers[at - 1])
                if at in self.taken:
                    taken.append(len(left))
        if len(left) > PARAMETER_LIMIT:
            if taken:
                raise Cannot("a call with over %d arguments" % PARAMETER_LIMIT)
            left, numbers = [(self.t.generic("null", left), Kind.OBJECT)], [0]
        self.effects, self.taken, self.numbers = left, taken, numbers

    def call(self, result: str) -> Call:
        """The call of a row with this result."""
        letters = [LETTERS[kind] for _, kind in self.effects]
        row = Row(tuple(WORDS[letter] for letter in letters), result, tuple(self.taken))
        wanted = self.signature.name
        if len(self.effects) != self.count and not wanted.startswith("pungi_"):
            wanted = "pungi_" + wanted
        function = self.signature.function
        source = RowSource(function, tuple(self.numbers)) if function is not None else None
        name = self.t.state.rows.name(wanted, row, source)
        return Call(name, tuple(expr for expr, _ in self.effects), place=self.t.place(self.node),
                    is_harmless=is_harmless(row))

    def result_word(self) -> str:
        """The word of the row's result."""
        if self.signature.result_word is not None:
            return self.signature.result_word
        kind = self.t.kind(self.signature.result)
        if kind == Kind.OBJECT:
            return OWNERSHIP_WORDS[self.signature.ownership]
        return RESULT_WORDS.get(kind, "long")

    def set_outputs(self) -> list[Effect]:
        """What the call leaves in its outputs."""
        given_up = [(self.t.state.rows.take(found.place.code), Kind.OBJECT) for found in self.outputs
                    if found.output == Output.REPLACED and self.t.kind(found.place.type) == Kind.OBJECT]
        stores = [set_output(self.t, found) for found in self.outputs]
        return given_up + [store for store in stores if store is not None]

    def clear_outputs(self) -> list[Effect]:
        """NULL in the outputs that are objects."""
        cleared = [clear_output(self.t, found) for found in self.outputs]
        return [effect for effect in cleared if effect is not None]

    def value(self) -> Value:
        """The call's value, after its outputs are set."""
        stores = self.set_outputs()
        if not stores:
            return self.plain_value()
        when_set = self.signature.when_set
        if when_set is None:
            return self.value_after(stores)
        return kept(Kind.INT, INT, self.value_with_outputs(when_set, stores))

    def plain_value(self) -> Value:
        """The value of a call without outputs."""
        result, kind = self.signature.result, self.t.kind(self.signature.result)
        call = self.call(self.result_word())
        if kind == Kind.VOID:
            return done(Expression(call, place=call.place))
        if kind == Kind.OPAQUE or isinstance(result, Number) and not result.is_natural:
            return opaque(result, [(call, Kind.LONG)])
        return kept(kind, result, call)

    def value_after(self, stores: list[Effect]) -> Value:
        """The value of a call whose value says nothing of its outputs."""
        if self.t.kind(self.signature.result) == Kind.VOID:
            call = self.call("void")
            return done(Expression(call, place=call.place), *(Expression(expr) for expr, _ in stores))
        return ordered(self.t, stores, self.plain_value())

    def value_with_outputs(self, when_set: WhenSet, stores: list[Effect]) -> Expr:
        """The value of a call that says which outputs are set."""
        all_set = self.t.generic("null", stores)
        minus_one = Literal("-1")
        if when_set == WhenSet.CONVERTER:
            return Conditional(self.call("status"), Unary("!", all_set), ZERO)
        if when_set == WhenSet.TRUTH:
            none = self.t.generic("null", self.clear_outputs())
            failed = Conditional(self.t.generic("choice"), Conditional(none, ZERO, minus_one),
                                 Conditional(none, ONE, ZERO))
            return Conditional(Binary(">", self.call("truth"), ZERO), Unary("!", all_set), failed)
        if when_set in (WhenSet.CLEARED, WhenSet.SENT):
            none = self.t.generic("null", self.clear_outputs())
            success = Unary("!", self.t.generic("choice")) if when_set == WhenSet.SENT else ZERO
            return Conditional(Binary("<", self.call("status"), ZERO), Conditional(none, ZERO, minus_one),
                               Conditional(all_set, ZERO, success))
        call = Binary("<", self.call("status"), ZERO)
        if when_set == WhenSet.RESIZED:
            place = self.outputs[0].place
            lost = [(self.t.state.rows.take(place.code), Kind.OBJECT),
                    (Assign(place.code, "=", NULL, place.slot), Kind.OBJECT)]
            return Conditional(call, Conditional(self.t.generic("null", lost), ZERO, minus_one), ZERO)
        return Conditional(call, minus_one, Conditional(all_set, ONE, ZERO))


def default_call(t: Translation, node: c_ast.Node, signature: Signature, arguments: list[c_ast.Node]) -> Value:
    """A call by a row that is made for it."""
    return DefaultCall(t, node, signature, arguments).value()
