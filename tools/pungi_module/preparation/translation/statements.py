"""Statements."""

from __future__ import annotations

from pycparser import c_ast

from ..calls.in_place import first_call_in_place, return_in_place
from ..reading.syntax import below, has_label, leaves_loop, stripped
from ..text.subset import (NULL, ZERO, Block, Case, Do, Expr, Expression, For, If, Jump, Label, Return, Stmt, Switch,
    While)
from ..types.c_types import OTHER, VOID, CType
from ..types.kinds import Kind
from .conversions import as_kind, condition, effects_of, fit
from .functions import lends_result
from .handlers import statement
from .moves import moved_out
from .translation import Translation
from .values import Cannot, Value, opaque


#: The first number that stands for a case whose constant is not known.
UNKNOWN_CASE = 2 ** 40


def statements_of(t: Translation, value: Value, node: c_ast.Node) -> list[Stmt]:
    """An expression as statements: what happens in it."""
    if value.kind == Kind.VOID:
        return value.statements
    return [Expression(expr, place=expr.place or t.place(node)) for expr, _ in effects_of(t, value)]


def block_of(t: Translation, node: c_ast.Node | None) -> Block:
    """A statement as a block of its own."""
    if node is None:
        return Block()
    translated = t.statement(node)
    if len(translated) == 1 and isinstance(translated[0], Block) and not translated[0].is_in_place:
        return translated[0]
    return Block(tuple(translated), place=t.place(node))


@statement(c_ast.Node)
def expression_statement(t: Translation, node: c_ast.Node) -> list[Stmt]:
    """An expression for what it does."""
    before, node = first_call_in_place(t, node)
    if node is None:
        return before
    return before + statements_of(t, t.value(node), node)


@statement(c_ast.Compound)
def compound(t: Translation, node: c_ast.Compound) -> list[Stmt]:
    """A block."""
    t.moved |= moved_out(node)
    t.scopes.append({})
    items: list[Stmt] = []
    for item in node.block_items or ():
        items += t.statement(item)
    t.scopes.pop()
    return [Block(tuple(items), place=t.place(node))]


@statement(c_ast.ExprList)
def comma_statement(t: Translation, node: c_ast.ExprList) -> list[Stmt]:
    """`a, b;`: one after the other."""
    return [item for expr in node.exprs for item in t.statement(expr)]


@statement(c_ast.TernaryOp)
def choice_statement(t: Translation, node: c_ast.TernaryOp) -> list[Stmt]:
    """`c ? a : b;`: as `if`."""
    test = condition(t, t.value(node.cond))
    then = Block(tuple(t.statement(node.iftrue)))
    return [If(test, then, Block(tuple(t.statement(node.iffalse))), place=t.place(node))]


@statement(c_ast.Cast)
def cast_statement(t: Translation, node: c_ast.Cast) -> list[Stmt]:
    """`(void)a;`."""
    if t.types.of(node.to_type) == VOID:
        return t.statement(node.expr)
    return expression_statement(t, node)


@statement(c_ast.DeclList)
def declarations(t: Translation, node: c_ast.DeclList) -> list[Stmt]:
    """The declarations of a `for`."""
    return [item for declaration in node.decls for item in t.statement(declaration)]


@statement(c_ast.Typedef)
def local_typedef(t: Translation, node: c_ast.Typedef) -> list[Stmt]:
    """A typedef inside a function."""
    t.types.add_typedef(node)
    return []


@statement(c_ast.Pragma, c_ast.EmptyStatement)
def nothing(t: Translation, node: c_ast.Node) -> list[Stmt]:
    """`;`."""
    return []


@statement(c_ast.If)
def if_statement(t: Translation, node: c_ast.If) -> list[Stmt]:
    """`if`; a branch that no run takes is left out."""
    before, tested = first_call_in_place(t, node.cond)
    test = t.value(tested) if tested is not None else opaque(OTHER)
    if test.constant is not None and not has_label(node):
        branch = node.iftrue if test.constant else node.iffalse
        return before + ([block_of(t, branch)] if branch is not None else [])
    code = condition(t, test)
    then = block_of(t, node.iftrue)
    otherwise = block_of(t, node.iffalse) if node.iffalse is not None else None
    return before + [If(code, then, otherwise, place=t.place(node))]


@statement(c_ast.While)
def while_statement(t: Translation, node: c_ast.While) -> list[Stmt]:
    """`while`."""
    return [While(condition(t, t.value(node.cond)), block_of(t, node.stmt), place=t.place(node))]


@statement(c_ast.DoWhile)
def do_statement(t: Translation, node: c_ast.DoWhile) -> list[Stmt]:
    """`do .. while`; a body that runs once is a block."""
    if t.constant(node.cond) == 0 and not leaves_loop(node.stmt):
        return [block_of(t, node.stmt)]
    body = block_of(t, node.stmt)
    return [Do(body, condition(t, t.value(node.cond)), place=t.place(node))]


@statement(c_ast.For)
def for_statement(t: Translation, node: c_ast.For) -> list[Stmt]:
    """`for`, with what comes first before it."""
    t.scopes.append({})
    items = t.statement(node.init) if node.init is not None else []
    test = condition(t, t.value(node.cond)) if node.cond is not None else None
    step = for_step(t, node.next) if node.next is not None else None
    items.append(For(test, step, block_of(t, node.stmt), place=t.place(node)))
    t.scopes.pop()
    return [Block(tuple(items), place=t.place(node))]


def for_step(t: Translation, node: c_ast.Node) -> Expr | None:
    """What a `for` does after each round."""
    effects = effects_of(t, t.value(node))
    if not effects:
        return None
    return effects[0][0] if len(effects) == 1 else t.generic("null", effects)


@statement(c_ast.Switch)
def switch_statement(t: Translation, node: c_ast.Switch) -> list[Stmt]:
    """`switch`."""
    value = t.value(node.cond)
    known = all(t.constant(item.expr) is not None for item in below(node.stmt) if isinstance(item, c_ast.Case))
    exact = value.kind.is_number and known
    code = value.code if exact else t.generic("long", effects_of(t, value))
    body = block_of(t, node.stmt)
    if any(isinstance(item, (c_ast.Case, c_ast.Default)) for item in nested_items(node.stmt)):
        raise Cannot("a case inside a statement of its switch")
    return [Switch(code, body, place=t.place(node))]


def nested_items(node: c_ast.Node) -> list[c_ast.Node]:
    """What stands in the statements of a switch's block, without other switches."""
    found: list[c_ast.Node] = []

    def look(inner: c_ast.Node) -> None:
        for _, child in inner.children():
            if not isinstance(child, c_ast.Switch):
                found.append(child)
                look(child)
    for item in node.block_items or () if isinstance(node, c_ast.Compound) else ():
        for part in item.stmts or () if isinstance(item, (c_ast.Case, c_ast.Default)) else (item,):
            if not isinstance(part, c_ast.Switch):
                look(part)
    return found


@statement(c_ast.Case)
def case(t: Translation, node: c_ast.Case) -> list[Stmt]:
    """`case value:` and what follows it."""
    value = t.constant(node.expr)
    if value is None:
        # its switch goes by any number: each case has one of its own
        value = UNKNOWN_CASE + t.new_number()
    return [Case(value, place=t.place(node))] + [found for item in node.stmts or () for found in t.statement(item)]


@statement(c_ast.Default)
def default(t: Translation, node: c_ast.Default) -> list[Stmt]:
    """`default:` and what follows it."""
    return [Case(None, place=t.place(node))] + [found for item in node.stmts or () for found in t.statement(item)]


@statement(c_ast.Label)
def label(t: Translation, node: c_ast.Label) -> list[Stmt]:
    """A label and what follows it."""
    found: list[Stmt] = [Label(label_name(t, node.name), place=t.place(node))]
    return found + (t.statement(node.stmt) if node.stmt is not None else [])


def label_name(t: Translation, name: str) -> str:
    """The printed label: one of a body that stands in place of its call has a name of its own."""
    return "%s_%s" % (t.frames[-1].end, name) if t.frames else name


@statement(c_ast.Goto)
def goto(t: Translation, node: c_ast.Goto) -> list[Stmt]:
    """`goto`."""
    return [Jump("goto " + label_name(t, node.name), place=t.place(node))]


@statement(c_ast.Break)
def break_statement(t: Translation, node: c_ast.Break) -> list[Stmt]:
    """`break`."""
    return [Jump("break", place=t.place(node))]


@statement(c_ast.Continue)
def continue_statement(t: Translation, node: c_ast.Continue) -> list[Stmt]:
    """`continue`."""
    return [Jump("continue", place=t.place(node))]


@statement(c_ast.Return)
def return_statement(t: Translation, node: c_ast.Return) -> list[Stmt]:
    """`return`."""
    kind, place = t.kind(t.signature.result), t.place(node)
    if node.expr is not None and not isinstance(node.expr, c_ast.ExprList):
        before, inner = first_call_in_place(t, node.expr)
        if before:
            return before + return_statement(t, c_ast.Return(inner, node.coord))
    if t.frames:
        return return_in_place(t, node)
    if node.expr is None:
        return [Return(nothing_of(kind), place=place)]
    if isinstance(node.expr, c_ast.ExprList) and len(node.expr.exprs) > 1:
        before = [item for expr in node.expr.exprs[:-1] for item in t.statement(expr)]
        last = return_statement(t, c_ast.Return(node.expr.exprs[-1], node.coord))
        return [Block((*before, *last), place=place)]
    value = returned_value(t, node, kind)
    if kind in (Kind.VOID, Kind.OPAQUE) or value.kind == Kind.VOID:
        return statements_of(t, value, node) + [Return(nothing_of(kind), place=place)]
    return [Return(returned_code(t, value, node), place=place)]


def nothing_of(kind: Kind) -> Expr | None:
    """What is returned where the source returns nothing that is kept."""
    if kind in (Kind.VOID, Kind.OPAQUE):
        return None
    return ZERO if kind.is_number else NULL


def returned_value(t: Translation, node: c_ast.Return, kind: Kind) -> Value:
    """The value that is returned: a pointer that is cast to an object only here is a new reference or NULL."""
    inner = stripped(node.expr)
    if kind == Kind.OBJECT and not t.kinds.is_uncounted(t.signature.result) and isinstance(node.expr, c_ast.Cast):
        value = t.value(inner)
        if value.kind == Kind.TEXT and not value.is_null and value.object_before is None:
            return value
    return t.value(node.expr)


def returned_code(t: Translation, value: Value, node: c_ast.Return) -> Expr:
    """The printed value of a `return`."""
    result: CType = t.signature.result
    if t.kind(result) != Kind.OBJECT:
        return fit(t, value, result, node)
    if lends_result(t):
        return NULL if value.is_null else as_kind(t, value, Kind.OBJECT, node)
    if value.kind == Kind.TEXT and not value.is_null and value.object_before is None:
        t.assume("pointer returned as an object", "a new reference or NULL", node)
        return t.generic("new", effects_of(t, value))
    return fit(t, value, result, node)
