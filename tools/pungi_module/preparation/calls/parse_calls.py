"""Calls of PyArg_Parse and its relatives: they set their outputs where they succeed."""

from __future__ import annotations

from pycparser import c_ast

from ...model import Row
from ..reading.syntax import addressed_name, string_value, stripped
from ..text.rows_used import Effect
from ..text.subset import ZERO, Assign, Call, Conditional, Expr, Unary
from ..translation.conversions import as_object, effects_of
from ..translation.handlers import call
from ..translation.translation import Translation
from ..translation.values import Form, Target, Value, kept
from ..types.c_types import INT
from ..types.kinds import Kind
from .default_calls import Signature, default_call
from .format_units import Unit, parse_units
from .outputs import output_target
from .own_calls import outputs_of
from .tables import NEW_CONVERTERS, Output, WhenSet

#: Units that leave an object, borrowed and not NULL.
OBJECT_UNITS = frozenset(("O", "S", "U", "Y", "O!"))


@call("PyArg_ParseTuple", "_PyArg_ParseTuple_SizeT", "PyArg_Parse", "_PyArg_Parse_SizeT")
def parse_tuple(t: Translation, node: c_ast.FuncCall, given: list[c_ast.Node]) -> Value:
    """PyArg_ParseTuple(arguments, format, ...)."""
    return parse_call(t, node, given[0], given[1], given[2:])


@call("PyArg_ParseTupleAndKeywords", "_PyArg_ParseTupleAndKeywords_SizeT")
def parse_keywords(t: Translation, node: c_ast.FuncCall, given: list[c_ast.Node]) -> Value:
    """PyArg_ParseTupleAndKeywords(arguments, keywords, format, names, ...)."""
    text = string_value(given[2])
    if text is not None and "|" in text:
        t.assume("keywords", "optional arguments are given or not, each by itself", node)
    return parse_call(t, node, given[0], given[2], given[4:])


def parse_call(t: Translation, node: c_ast.FuncCall, source: c_ast.Node, form: c_ast.Node,
               outputs: list[c_ast.Node]) -> Value:
    """1, with the outputs set as the format says; or 0."""
    text = string_value(form)
    if text is None:
        return unknown_format(t, node, source, outputs)
    stores: list[Effect] = []
    at = 0
    for unit in parse_units(text):
        stores += unit_stores(t, node, unit, outputs[at:at + unit.arguments])
        at += unit.arguments
    value = t.value(source)
    code = as_object(t, value, source)
    name = t.state.rows.name("pungi_parse", Row(("object?",), "status"))
    parsed = Call(name, (code,), place=t.place(node), is_harmless=True)
    if not stores:
        return kept(Kind.INT, INT, Unary("!", parsed))
    return kept(Kind.INT, INT, Conditional(parsed, ZERO, Unary("!", t.generic("null", stores))))


def unknown_format(t: Translation, node: c_ast.FuncCall, source: c_ast.Node, outputs: list[c_ast.Node]) -> Value:
    """A format that is no constant: each output is set to a borrowed reference or NULL."""
    t.assume("format", "no constant", node)
    found = {at: Output.BORROWED for at in range(1, len(outputs) + 1)}
    for at, output in enumerate(outputs[:-1]):
        if getattr(stripped(output), "name", None) in NEW_CONVERTERS:
            found[at + 2] = Output.NEW
    return default_call(t, node, Signature("pungi_parse_any", INT, when_set=WhenSet.CONVERTER, outputs=found),
                        [source] + outputs)


def unit_stores(t: Translation, node: c_ast.FuncCall, unit: Unit, outputs: list[c_ast.Node]) -> list[Effect]:
    """What a unit leaves in its outputs."""
    found = []
    for output in outputs:
        place = output_target(t, output)
        if place is None or place.form != Form.KEPT:
            continue
        kind = t.kind(place.type)
        value = unit_value(t, node, unit, outputs, place, kind)
        slot = place.slot if kind == Kind.OBJECT else None
        found.append((Assign(place.code, "=", value, slot), kind))
    return found


def unit_value(t: Translation, node: c_ast.FuncCall, unit: Unit, outputs: list[c_ast.Node], place: Target,
               kind: Kind) -> Expr:
    """What a unit leaves in an output: where it may be left out, also what was there before."""
    if kind == Kind.OBJECT:
        value = object_value(t, node, unit, outputs)
    elif kind == Kind.TEXT:
        value = t.generic("text")
    else:
        value = t.generic(kind.number_word)
    if unit.is_optional and kind == Kind.OBJECT:
        return Conditional(t.generic("choice"), place.code, value)
    return value


def object_value(t: Translation, node: c_ast.FuncCall, unit: Unit, outputs: list[c_ast.Node]) -> Expr:
    """What a unit leaves where an object is wanted."""
    if unit.letters in OBJECT_UNITS:
        return t.generic("sure")
    if unit.letters.endswith("*"):
        return t.generic("new")
    if unit.letters == "O&":
        converter = getattr(stripped(outputs[0]), "name", "?")
        if converter in NEW_CONVERTERS:
            return t.generic("new")
        if outputs_of(t, converter).get(1) in (Output.NEW, Output.UPDATED):
            t.assume("output of a function of the file", converter, node)
            return t.generic("new")
        t.assume("output guessed", "converter %s" % converter, node)
    else:
        t.assume("output guessed", "unit %s of %s" % (unit.letters, addressed_name(outputs[-1])), node)
    return t.generic("borrowed")


@call("PyArg_UnpackTuple")
def unpack_tuple(t: Translation, node: c_ast.FuncCall, given: list[c_ast.Node]) -> Value:
    """PyArg_UnpackTuple(arguments, name, least, most, ...)."""
    least = t.constant(given[2]) or 0
    stores: list[Effect] = []
    for at, output in enumerate(given[4:]):
        unit = Unit("O", 1, at >= least)
        stores += unit_stores(t, node, unit, [output])
    value = t.value(given[0])
    name = t.state.rows.name("pungi_parse", Row(("object?",), "status"))
    parsed = Call(name, (as_object(t, value, given[0]),), place=t.place(node), is_harmless=True)
    before = [effect for argument in given[2:4] for effect in effects_of(t, t.value(argument))]
    all_set = Unary("!", t.generic("null", before + stores))
    return kept(Kind.INT, INT, Conditional(parsed, ZERO, all_set))
