"""Operators on values: arithmetic, comparison, logic, choice and the comma."""

from __future__ import annotations

from pycparser import c_ast

from ..reading.syntax import place_named
from ..text.subset import ZERO, Binary, Conditional, Expr, Unary
from ..types.c_types import INT, LONG, OTHER, UNSIGNED_LONG, CType, Number, common, decayed
from ..types.constants import GREATEST
from ..types.kinds import Kind
from .conversions import as_kind, condition, effects_of, ordered
from .handlers import expression
from .names import number, read
from .stores import step
from .targets import element
from .translation import Translation
from .values import Cannot, Value, kept, null, opaque

COMPARISONS = ("==", "!=", "<", ">", "<=", ">=")


@expression(c_ast.ExprList)
def comma(t: Translation, node: c_ast.ExprList) -> Value:
    """`a, b`: the value of the last, after the others."""
    effects = []
    for item in node.exprs[:-1]:
        effects += effects_of(t, t.value(item))
    return ordered(t, effects, t.value(node.exprs[-1]))


@expression(c_ast.TernaryOp)
def choice(t: Translation, node: c_ast.TernaryOp) -> Value:
    """`c ? a : b`."""
    test = t.value(node.cond)
    if test.constant is not None:
        return t.value(node.iftrue if test.constant else node.iffalse)
    code = condition(t, test)
    then, otherwise = t.value(node.iftrue), t.value(node.iffalse)
    then, otherwise = as_null(then, otherwise), as_null(otherwise, then)
    if then.is_null and otherwise.is_null:
        return ordered(t, effects_of(t, test), then)
    kinds = {then.kind, otherwise.kind}
    for kind in (Kind.OBJECT, Kind.TEXT):
        if kind in kinds:
            of_type = next(x.type for x in (then, otherwise) if x.kind == kind)
            if kind == Kind.OBJECT and then.kind == kind and not then.is_null:
                of_type = then.type
            arms = as_kind(t, then, kind, node), as_kind(t, otherwise, kind, node)
            return kept(kind, of_type, Conditional(code, *arms))
    if then.kind.is_number and otherwise.kind.is_number:
        of_kind = Kind.INT if then.kind == otherwise.kind == Kind.INT else Kind.LONG
        return kept(of_kind, common(then.type, otherwise.type), Conditional(code, then.code, otherwise.code))
    return opaque_choice(t, test, code, then, otherwise)


def as_null(value: Value, other: Value) -> Value:
    """A constant 0 beside a pointer is NULL."""
    if value.constant == 0 and other.kind in (Kind.OBJECT, Kind.TEXT) or value.is_null and other.kind == Kind.OBJECT:
        return null(other.kind, other.type)
    return value


def opaque_choice(t: Translation, test: Value, code: Expr, then: Value, otherwise: Value) -> Value:
    """A choice whose value is not kept."""
    of_type = then.type if then.kind != Kind.VOID else OTHER
    first, second = effects_of(t, then), effects_of(t, otherwise)
    if not first and not second:
        return opaque(of_type, effects_of(t, test))
    arms = [t.generic("null", effects) if effects else t.generic("null") for effects in (first, second)]
    return opaque(of_type, [(Conditional(code, arms[0], arms[1]), Kind.OBJECT)])


@expression(c_ast.BinaryOp)
def binary(t: Translation, node: c_ast.BinaryOp) -> Value:
    """An operator between two operands."""
    value = t.constant(node)
    if value is not None and abs(value) <= GREATEST:
        return number(value)
    if node.op in ("&&", "||"):
        return logical(t, node)
    left, right = t.value(node.left), t.value(node.right)
    if Kind.VOID in (left.kind, right.kind):
        raise Cannot("the value of a call that has none")
    if node.op in COMPARISONS:
        return comparison(t, node.op, left, right)
    effects = effects_of(t, left) + effects_of(t, right)
    pointers = (Kind.OBJECT, Kind.TEXT)
    if node.op in ("+", "-") and (left.kind in pointers or right.kind in pointers):
        return pointer_sum(t, node.op, left, right)
    kind = common(left.type, right.type)
    if left.kind.is_number and right.kind.is_number and node.op in ("+", "-", "*", "/", "%"):
        if isinstance(kind, Number) and kind.is_natural:
            of_kind = Kind.INT if left.kind == right.kind == Kind.INT else Kind.LONG
            return kept(of_kind, kind, Binary(node.op, left.code, right.code, word=of_kind.number_word,
                                            place=t.place(node)))
    return opaque(kind, effects)


def logical(t: Translation, node: c_ast.BinaryOp) -> Value:
    """`&&` and `||`."""
    left, right = t.value(node.left), t.value(node.right)
    if right.kind == Kind.VOID:
        right = opaque(OTHER, effects_of(t, right))
    if left.constant is not None:
        if (node.op == "&&") != bool(left.constant):
            return number(int(node.op == "||"))
        return kept(Kind.INT, INT, Unary("!", Unary("!", condition(t, right))))
    return kept(Kind.INT, INT, Binary(node.op, condition(t, left), condition(t, right)))


def comparison(t: Translation, op: str, left: Value, right: Value) -> Value:
    """A comparison; of what is not kept, either result."""
    if op in ("==", "!="):
        for one, other in ((left, right), (right, left)):
            if (one.is_null or one.constant == 0) and other.kind in (Kind.OBJECT, Kind.TEXT):
                return null_test(t, op, other)
        if left.kind == right.kind == Kind.OBJECT:
            return kept(Kind.INT, INT, Binary(op, left.code, right.code))
    if left.kind.is_number and right.kind.is_number and is_exact(left, right):
        return kept(Kind.INT, INT, Binary(op, left.code, right.code))
    effects = effects_of(t, left) + effects_of(t, right)
    return kept(Kind.INT, INT, Unary("!", t.generic("choice", effects)))


def null_test(t: Translation, op: str, value: Value) -> Value:
    """A pointer compared with NULL."""
    tested = value.code if op == "!=" else Unary("!", value.code)
    return kept(Kind.INT, INT, Unary("!", Unary("!", tested)) if op == "!=" else tested)


def is_exact(left: Value, right: Value) -> bool:
    """The comparison of the printed values says what that of the numbers says."""
    kind = common(left.type, right.type)
    if isinstance(kind, Number) and kind.is_natural:
        return True
    return all(value.constant is not None and value.constant >= 0
               or isinstance(value.type, Number) and not value.type.signed for value in (left, right))


def pointer_sum(t: Translation, op: str, left: Value, right: Value) -> Value:
    """A pointer and a number: the pointer, where it is a text; another element, where it is an array of objects."""
    pointers = (Kind.OBJECT, Kind.TEXT)
    for one, other in ((left, right), (right, left)):
        if one.kind not in pointers or other.kind in pointers or op == "-" and one is right:
            continue
        if one.kind == Kind.OBJECT and other.constant != 0:
            effects = effects_of(t, left) + effects_of(t, right)
            return kept(Kind.OBJECT, decayed(one.type), t.generic("sure", effects))
        if effects_of(t, other):
            effects = effects_of(t, left) + effects_of(t, right)
            return kept(one.kind, decayed(one.type), t.generic("text", effects))
        return kept(one.kind, decayed(one.type), one.code)
    return kept(Kind.LONG, LONG, t.generic("long", effects_of(t, left) + effects_of(t, right)))


@expression(c_ast.UnaryOp)
def unary(t: Translation, node: c_ast.UnaryOp) -> Value:
    """An operator on one operand."""
    from .addresses import address
    value = t.constant(node)
    if value is not None and abs(value) <= GREATEST:
        return number(value)
    if node.op == "&":
        return address(t, node)
    if node.op == "*":
        place = place_named(node)
        if place is not node:
            return t.value(place)
        return read(t, element(t, node.expr, None), node)
    if node.op == "sizeof":
        return opaque(UNSIGNED_LONG)
    if node.op in ("++", "--", "p++", "p--"):
        return step(t, node)
    operand = t.value(node.expr)
    if node.op == "!":
        return kept(Kind.INT, INT, Unary("!", condition(t, operand)))
    if node.op in ("+", "-") and operand.kind.is_number and isinstance(operand.type, Number):
        kind: CType = INT if operand.type.bits < 32 else operand.type
        if operand.type.is_natural or operand.type.bits < 32:
            return kept(operand.kind, kind, Binary(node.op, ZERO, operand.code, word=operand.kind.number_word,
                                                   place=t.place(node)))
    return opaque(operand.type, effects_of(t, operand))
