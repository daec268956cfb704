"""Functions made at random, run as they are and with their dead locals set: each call gets the same arguments."""

from __future__ import annotations

import random
import sys
import unittest
from pathlib import Path

sys.path.insert(0, str(Path(__file__).resolve().parent.parent))

from pungi_module.model import Place  # noqa: E402
from pungi_module.preparation.passes.dead_locals import with_dead_locals_set  # noqa: E402
from pungi_module.preparation.text.rows_used import RowsUsed  # noqa: E402
from pungi_module.preparation.text.subset import (  # noqa: E402
    ONE, ZERO, Assign, Binary, Block, Call, Case, Conditional, Declare, Do, Expr, Expression, For, If, Jump, Label,
    Literal, Name, Return, Step, Stmt, Switch, Unary, While, walk)
from pungi_module.preparation.text.printed_function import PrintedFunction  # noqa: E402

COUNT, DEPTH, MOST_STEPS, RUNS = 1500, 4, 120, 6
PARAMETERS = [("int ", "p"), ("int ", "q")]


class Made:
    """A function made at random."""

    def __init__(self, chance: random.Random) -> None:
        self.chance = chance
        self.sites = self.names = 0
        self.labels = ["out"]
        start = tuple(Declare("int ", name, chance.choice([None, ZERO, ONE])) for name in "abc")
        self.scope = ["p", "q", "a", "b", "c"]
        self.body = Block((*start, *self.items(DEPTH, False, False), Label("out"), Return(self.value(1))))

    def items(self, depth: int, in_loop: bool, in_switch: bool) -> tuple[Stmt, ...]:
        """Statements, among them declarations and a label at the end to which jumps lead."""
        known, labels = len(self.scope), len(self.labels)
        label = f"l{self.site()}" if self.chance.random() < 0.3 else None
        self.labels += [label] if label else []
        found: list[Stmt] = [self.statement(depth, in_loop, in_switch) for _ in range(self.chance.randint(1, 4))]
        if label:
            found.insert(self.chance.randint(0, len(found)), Label(label))
            found.append(Expression(self.call()))
        del self.scope[known:], self.labels[labels:]
        return tuple(found)

    def site(self) -> int:
        """A number that no other place has."""
        self.sites += 1
        return self.sites

    def statement(self, depth: int, in_loop: bool, in_switch: bool) -> Stmt:
        """A statement."""
        kinds = ["set", "set", "call", "step", "declare"]
        kinds += ["if", "if", "while", "do", "for", "switch", "block"] if depth else []
        kinds += ["continue"] if in_loop else []
        kinds += ["break"] if in_loop or in_switch else []
        return getattr(self, "make_" + self.chance.choice([*kinds, "goto"]))(depth - 1, in_loop, in_switch)

    def make_set(self, *_: object) -> Stmt:
        return Expression(Assign(self.name(), self.chance.choice(["=", "=", "+="]), self.value(2)))

    def make_call(self, *_: object) -> Stmt:
        return Expression(self.call())

    def make_step(self, *_: object) -> Stmt:
        return Expression(Step("++", self.name(), self.chance.random() < 0.5))

    def make_declare(self, *_: object) -> Stmt:
        value = self.value(1) if self.chance.random() < 0.6 else None
        self.scope.append(f"d{self.site()}")
        return Declare("int ", self.scope[-1], value)

    def make_if(self, depth: int, *around: bool) -> Stmt:
        otherwise = Block(self.items(depth, *around)) if self.chance.random() < 0.5 else None
        return If(self.value(2), Block(self.items(depth, *around)), otherwise)

    def make_while(self, depth: int, *_: bool) -> Stmt:
        return While(self.value(2), Block(self.items(depth, True, False)))

    def make_do(self, depth: int, *_: bool) -> Stmt:
        return Do(Block(self.items(depth, True, False)), self.value(2))

    def make_for(self, depth: int, *_: bool) -> Stmt:
        return For(self.value(2), Assign(self.name(), "=", self.value(1)), Block(self.items(depth, True, False)))

    def make_switch(self, depth: int, in_loop: bool, _: bool) -> Stmt:
        found: list[Stmt] = []
        known = len(self.scope)
        for case in self.chance.sample([0, 1, 2, None], self.chance.randint(1, 3)):
            found += [Case(case), *self.items(depth, in_loop, True)]
            found += [Jump("break")] if self.chance.random() < 0.5 else []
        del self.scope[known:]
        return Switch(self.value(1), Block(tuple(found)))

    def make_block(self, depth: int, *around: bool) -> Stmt:
        return Block(self.items(depth, *around))

    def make_goto(self, *_: object) -> Stmt:
        return If(self.value(1), Jump("goto " + self.chance.choice(self.labels)))

    def make_break(self, *_: object) -> Stmt:
        return If(self.value(1), Jump("break"))

    def make_continue(self, *_: object) -> Stmt:
        return If(self.value(1), Jump("continue"))

    def name(self) -> Name:
        return Name(self.chance.choice(self.scope))

    def call(self) -> Call:
        """A call with a name of its own."""
        return Call(f"f{self.site()}", tuple(self.value(1) for _ in range(self.chance.randint(0, 2))))

    def value(self, depth: int) -> Expr:
        """An expression."""
        kind = self.chance.randint(0, 8 if depth else 2)
        if kind <= 2:
            return [self.name(), ZERO, ONE][kind] if kind else self.name()
        if kind <= 4:
            return self.call()
        left, right = self.value(depth - 1), self.value(depth - 1)
        if kind == 5:
            return Conditional(left, right, self.value(depth - 1))
        if kind == 6:
            return Assign(self.name(), "=", left)
        return Unary("!", left) if kind == 7 else Binary(self.chance.choice(["&&", "||", "<", "-"]), left, right)


class Unset(Exception):
    """A run that reads what is unset stops."""


class Left(Exception):
    """A statement is left by a jump, or the function by a return."""


class Interpreter:
    """One run: what a call gives depends on its name, and how often it was made."""

    def __init__(self, seed: int) -> None:
        self.seed, self.steps = seed, 0
        self.locals: dict[str, int | None] = {"p": seed % 3, "q": seed % 2}
        self.calls: list[tuple[str, tuple[int, ...]]] = []
        self.made: dict[str, int] = {}

    def run(self, body: Block) -> str:
        """Runs a body; how it ends."""
        try:
            self.block(body)
        except Left as left:
            return str(left)
        except Unset:
            return "unset"
        raise AssertionError("no return")

    def block(self, node: Stmt, start: str | None = None, case: object = "none") -> None:
        """A block, from a label or case of it on."""
        items = node.items if isinstance(node, Block) else (node,)
        self.locals.update({item.name: None for item in items if isinstance(item, Declare) and start is None})
        at = 0
        if case != "none":
            at = items.index(Case(case)) if isinstance(case, int) or case is None else 0
        while at < len(items):
            try:
                self.statement(items[at])
                at += 1
            except Left as left:
                word = str(left).removeprefix("goto ")
                if Label(word) not in items:
                    raise
                at = items.index(Label(word))

    def statement(self, node: Stmt) -> None:
        self.steps += 1
        if self.steps > MOST_STEPS:
            raise Left("too long")
        getattr(self, "do_" + type(node).__name__.lower())(node)

    def do_block(self, node: Block) -> None:
        self.block(node)

    def do_label(self, node: Stmt) -> None:
        pass

    do_case = do_label

    def do_expression(self, node: Expression) -> None:
        self.value(node.expr)

    def do_declare(self, node: Declare) -> None:
        self.locals[node.name] = None if node.value is None else self.value(node.value)

    def do_if(self, node: If) -> None:
        if self.value(node.condition):
            self.block(node.then)
        elif node.otherwise is not None:
            self.block(node.otherwise)

    def do_while(self, node: While | For) -> None:
        step = node.step if isinstance(node, For) else None
        while self.value(node.condition) and self.goes_on(node.body):
            if step is not None:
                self.value(step)

    do_for = do_while

    def do_do(self, node: Do) -> None:
        while self.goes_on(node.body) and self.value(node.condition):
            pass

    def goes_on(self, node: Stmt) -> bool:
        """One turn of a loop."""
        self.steps += 1
        if self.steps > MOST_STEPS:
            raise Left("too long")
        try:
            self.block(node)
        except Left as left:
            if str(left) not in ("break", "continue"):
                raise
            return str(left) == "continue"
        return True

    def do_switch(self, node: Switch) -> None:
        value, cases = self.value(node.value), [item.value for item in node.body.items if isinstance(item, Case)]
        if value not in cases and None not in cases:
            return
        try:
            self.block(node.body, case=value if value in cases else None)
        except Left as left:
            if str(left) != "break":
                raise

    def do_jump(self, node: Jump) -> None:
        raise Left(node.word)

    def do_return(self, node: Return) -> None:
        raise Left(f"returns {self.value(node.value)}")

    def value(self, node: Expr | None) -> int:
        """The value of an expression."""
        if isinstance(node, Literal):
            return int(node.text)
        if isinstance(node, Name):
            found = self.locals[node.text]
            if found is None:
                raise Unset
            return found
        if isinstance(node, Call):
            arguments = tuple(self.value(argument) for argument in node.arguments)
            self.calls.append((node.name, arguments))
            self.made[node.name] = self.made.get(node.name, 0) + 1
            return random.Random(f"{self.seed} {node.name} {self.made[node.name]}").randint(0, 2)
        if isinstance(node, Conditional):
            return self.value(node.then if self.value(node.condition) else node.otherwise)
        if isinstance(node, (Assign, Step)):
            return self.store(node)
        if isinstance(node, Unary):
            return int(not self.value(node.operand))
        assert isinstance(node, Binary)
        left = self.value(node.left)
        if node.op in ("&&", "||"):
            return int(bool(left)) if bool(left) == (node.op == "||") else int(bool(self.value(node.right)))
        right = self.value(node.right)
        return int(left < right) if node.op == "<" else left - right

    def store(self, node: Assign | Step) -> int:
        """A store."""
        assert isinstance(node.target, Name)
        before = self.value(node.target) if not isinstance(node, Assign) or node.op != "=" else 0
        value = before + (self.value(node.value) if isinstance(node, Assign) else 1)
        self.locals[node.target.text] = value
        return before if isinstance(node, Step) and not node.is_prefix else value


class AtRandom(unittest.TestCase):
    """Functions made at random."""

    def test_calls_get_the_same_arguments(self) -> None:
        stores = 0
        for seed in range(COUNT):
            body = Made(random.Random(seed)).body
            function = PrintedFunction("f", Place("x.c", 1, 1), "int ", PARAMETERS, body, [], [], {})
            changed = with_dead_locals_set(function, RowsUsed(set())).body
            stores += sum(isinstance(node, Assign) for node in walk(changed))
            for number in range(RUNS):
                one, other = Interpreter(number), Interpreter(number)
                ends = one.run(body), other.run(changed)
                if "unset" in ends or "too long" in ends:
                    self.assertEqual(*(run.calls[:min(len(one.calls), len(other.calls))] for run in (one, other)), seed)
                else:
                    self.assertEqual((ends[0], one.calls), (ends[1], other.calls), seed)
        self.assertGreater(stores, COUNT)


if __name__ == "__main__":
    unittest.main()
