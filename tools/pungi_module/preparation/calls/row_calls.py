"""Calls that a row describes: those that Pungi knows by itself, and those of the manual."""

from __future__ import annotations

from pycparser import c_ast

from ...model import Row
from ..reading.syntax import stripped
from ..text.known_names import BUILTIN_ROWS
from ..text.rows_used import is_harmless
from ..text.subset import Call, Expr, Expression, Literal, Unary
from ..translation.conversions import as_kind, as_object, fit_number
from ..translation.translation import Translation
from ..translation.values import Cannot, Value, done, kept, opaque
from ..types.c_types import INT, LONG, OBJECT, SIZE, TEXT, VOID, CType, Number, Pointer
from ..types.kinds import Kind
from .default_calls import Signature, default_call
from .outputs import output_target

RESULT_TYPES: dict[str, CType] = {
    "new": OBJECT, "borrowed": OBJECT, "borrowed_sure": OBJECT, "null": OBJECT, "status": INT, "truth": INT, "int": INT,
    "size": SIZE, "long": LONG, "text": TEXT, "void": VOID,
}

#: Calls of these names return 0 or 1, and do not fail: they are one of two ways.
CHECKS = ("_Check", "_CheckExact")

NUMBER_TYPES = {"int": INT, "long": LONG, "size": SIZE}


def known_row(t: Translation, name: str, count: int) -> Row | None:
    """The row of a call with so many arguments."""
    row = BUILTIN_ROWS.get(name) or t.state.api.get(name)
    return row if row is not None and len(row.params) == count else None


def row_call(t: Translation, node: c_ast.FuncCall, name: str, row: Row, arguments: list[c_ast.Node]) -> Value | None:
    """The call by its row; None where its arguments are not those that the row is about."""
    builtin = name in BUILTIN_ROWS
    if not builtin and any(output_target(t, argument) is not None for argument in arguments):
        return None
    printed: list[Expr] = []
    for argument, word in zip(arguments, row.params):
        code = row_argument(t, argument, word)
        if code is None:
            return null_argument(t, node, name, row, arguments)
        printed.append(code)
    if row.result == "truth" and name.endswith(CHECKS):
        asked = t.state.rows.name("pungi_" + name, Row(row.params, "status"))
        return kept(Kind.INT, INT, Unary("!", Call(asked, tuple(printed), place=t.place(node), is_harmless=True)))
    printed_name = name if builtin else t.state.rows.name(name, accepting(row))
    call = Call(printed_name, tuple(printed), place=t.place(node), is_harmless=is_harmless(row))
    return row_value(t, name, row, call)


def accepting(row: Row) -> Row:
    """The row with parameters that may be NULL where it takes them over: what it does with NULL is nothing."""
    taken = row.takes + row.takes_on_success
    params = tuple("object?" if at in taken and word == "object" else word for at, word in enumerate(row.params, 1))
    return Row(params, row.result, row.takes, row.takes_on_success)


def row_argument(t: Translation, argument: c_ast.Node, word: str) -> Expr | None:
    """An argument as a parameter of this word; None for NULL where none may be."""
    if word == "module":
        inner = stripped(argument)
        name = inner.expr.name if isinstance(inner, c_ast.UnaryOp) and isinstance(inner.expr, c_ast.ID) else None
        if name not in t.module.globals:
            raise Cannot("a module's table that is not named")
        t.state.module_tables.add(name)
        return Literal("&" + name)
    value = t.value(argument)
    if word.startswith("object"):
        if value.is_null and not word.endswith("?"):
            return None
        return as_object(t, value, argument)
    if word.startswith("text"):
        if value.is_null and not word.endswith("?"):
            return None
        return as_kind(t, value, Kind.TEXT, argument)
    return fit_number(t, value, NUMBER_TYPES[word])


def null_argument(t: Translation, node: c_ast.FuncCall, name: str, row: Row, arguments: list[c_ast.Node]) -> Value:
    """A call with NULL where the row wants an object or text, as PyObject_SetAttr with NULL, which deletes."""
    ownership = {"borrowed": "borrowed", "borrowed_sure": "sure"}.get(row.result, "new")
    signature = Signature(name, result_type(t, name, row), ownership, row.takes, result_word=row.result)
    return default_call(t, node, signature, arguments)


def result_type(t: Translation, name: str, row: Row) -> CType:
    """The type of a call's value: that of its prototype, where the row agrees with it."""
    of_row = RESULT_TYPES[row.result]
    declared = t.module.signature(name)
    if declared is None:
        return of_row
    if of_row == OBJECT and t.kind(declared.result) == Kind.OBJECT:
        return declared.result
    if isinstance(of_row, Number) and isinstance(declared.result, Number):
        return declared.result
    if isinstance(of_row, Pointer) and t.kind(declared.result) == Kind.TEXT and row.result == "text":
        return declared.result
    return of_row


def row_value(t: Translation, name: str, row: Row, call: Call) -> Value:
    """The value of a call that a row describes."""
    kind = result_type(t, name, row)
    if row.result == "void":
        return done(Expression(call, place=call.place))
    if isinstance(kind, Number):
        word_kind = {"size": Kind.SIZE, "long": Kind.LONG}.get(row.result, Kind.INT)
        if not kind.is_natural:
            return opaque(kind, [(call, word_kind)])
        return kept(word_kind, kind, call)
    return kept(t.kind(kind), kind, call)
