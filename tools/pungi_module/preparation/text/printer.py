"""The printed text: each function on the lines of the source, and the places that its tokens stand for."""

from __future__ import annotations

from ...model import Place
from .printed_function import PrintedFunction
from .source_places import SourceLines
from .subset import (Arrow, Assign, Binary, Block, Call, Case, CastTo, Conditional, Declare, Do, Expr, Expression, For,
    If, Jump, Label, Literal, Name, Return, Step, Stmt, Switch, Unary, While)


class Printer:
    """A text while it is printed."""

    def __init__(self, main: str) -> None:
        self.main = main
        self.lines = SourceLines()
        self.out: list[str] = []
        self.line, self.column = 1, 1
        self.places: dict[tuple[int, int], Place] = {}
        #: The line of the source on which all that follows stands, for a function of an included file.
        self.fixed_line: int | None = None

    def write(self, text: str) -> None:
        """Writes a token or several."""
        self.out.append(text)
        self.column += len(text)

    def new_line(self) -> None:
        """Ends the line."""
        self.out.append("\n")
        self.line, self.column = self.line + 1, 1

    def at(self, place: Place | None) -> None:
        """Goes on to the line of a place, if that is not reached yet."""
        if place is None:
            return
        line = self.fixed_line if self.fixed_line is not None else place.line
        while self.line < line:
            self.new_line()

    def mark(self, place: Place | None, word: str) -> None:
        """The token that is written next stands for this place, where the word stands in the source."""
        if place is not None:
            self.places[self.line, self.column] = self.lines.place_of_word(place, word)

    def function(self, function: PrintedFunction) -> int:
        """Prints a function; the line of its name."""
        self.fixed_line = function.line
        self.at(function.place)
        self.write(function.result)
        self.mark(function.place, function.name)
        line = self.line
        parameters = ", ".join(words + name for words, name in function.parameters) or "void"
        self.write("%s(%s) " % (function.name, parameters))
        self.statement(function.body)
        return line

    def statement(self, node: Stmt) -> None:
        """Prints a statement."""
        if not (isinstance(node, Block) and node.is_in_place):
            self.at(node.place)
        getattr(self, "_" + type(node).__name__.lower())(node)

    def _block(self, node: Block) -> None:
        fixed_line = self.fixed_line
        if node.is_in_place:
            self.fixed_line = self.line
        self.write("{ ")
        for item in node.items:
            self.statement(item)
        self.write("} ")
        self.fixed_line = fixed_line

    def _inner(self, node: Stmt) -> None:
        """A statement that another has, in braces."""
        self.statement(node if isinstance(node, Block) else Block((node,), place=node.place))

    def _expression(self, node: Expression) -> None:
        self.top(node.expr)
        self.write("; ")

    def _declare(self, node: Declare) -> None:
        self.write(node.words)
        self.mark(node.place, node.name)
        self.write(node.name)
        if node.value is not None:
            self.write(" = ")
            self.top(node.value)
        self.write("; ")

    def _if(self, node: If) -> None:
        self.write("if (")
        self.top(node.condition)
        self.write(") ")
        self._inner(node.then)
        if node.otherwise is not None:
            self.write("else ")
            if isinstance(node.otherwise, If):
                self.statement(node.otherwise)
            else:
                self._inner(node.otherwise)

    def _while(self, node: While) -> None:
        self.write("while (")
        self.top(node.condition)
        self.write(") ")
        self._inner(node.body)

    def _do(self, node: Do) -> None:
        self.write("do ")
        self._inner(node.body)
        self.write("while (")
        self.top(node.condition)
        self.write("); ")

    def _for(self, node: For) -> None:
        self.write("for (; ")
        if node.condition is not None:
            self.top(node.condition)
        self.write("; ")
        if node.step is not None:
            self.top(node.step)
        self.write(") ")
        self._inner(node.body)

    def _switch(self, node: Switch) -> None:
        self.write("switch (")
        self.top(node.value)
        self.write(") ")
        self._block(node.body)

    def _case(self, node: Case) -> None:
        self.write("default: ; " if node.value is None else "case %d: ; " % node.value)

    def _label(self, node: Label) -> None:
        self.write(node.name + ": ; ")

    def _jump(self, node: Jump) -> None:
        self.write(node.word + "; ")

    def _return(self, node: Return) -> None:
        self.mark(node.place, "return")
        self.write("return")
        if node.value is not None:
            self.write(" ")
            self.top(node.value)
        self.write("; ")

    def top(self, node: Expr) -> None:
        """An expression that needs no parentheses around it."""
        if isinstance(node, Binary):
            self.operand(node.left)
            self.write(" %s " % node.op)
            self.operand(node.right)
        elif isinstance(node, Conditional):
            self.operand(node.condition)
            self.write(" ? ")
            self.operand(node.then)
            self.write(" : ")
            self.operand(node.otherwise)
        elif isinstance(node, Assign):
            self.operand(node.target)
            self.write(" %s " % node.op)
            self.top(node.value)
        elif isinstance(node, Unary):
            self.write(node.op)
            self.operand(node.operand)
        elif isinstance(node, Step):
            self.write(node.op if node.is_prefix else "")
            self.operand(node.target)
            self.write("" if node.is_prefix else node.op)
        elif isinstance(node, CastTo):
            self.write("(%s)" % node.words.rstrip())
            self.operand(node.operand)
        else:
            self.simple(node)

    def simple(self, node: Expr) -> None:
        """A name, a constant, a field or a call."""
        if isinstance(node, Name):
            self.mark(node.place, node.text)
            self.write(node.text)
        elif isinstance(node, Literal):
            self.write(node.text)
        elif isinstance(node, Arrow):
            self.operand(node.base)
            self.mark(node.place, node.member.removeprefix("f_").split("__")[-1])
            self.write("->" + node.member)
        elif isinstance(node, Call):
            self.mark(node.place, node.name)
            self.write(node.name + "(")
            for at, argument in enumerate(node.arguments):
                self.write(", " if at else "")
                self.top(argument)
            self.write(")")
        else:
            raise TypeError(type(node).__name__)

    def operand(self, node: Expr) -> None:
        """An expression inside another: in parentheses, where it is an operator."""
        if isinstance(node, (Name, Literal, Arrow, Call)):
            self.simple(node)
            return
        self.write("(")
        self.top(node)
        self.write(")")
