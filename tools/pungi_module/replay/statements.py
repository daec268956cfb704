"""Statements along a replayed run."""

from __future__ import annotations

from pycparser import c_ast

from .definitions import parsed
from .expressions import Expressions
from .values import BREAKS, Break, Continue, Goto, NotReplayed, Return

#: A run that takes more steps than this is not replayed.
MOST_STEPS = 200_000


def labels_of(node: c_ast.Node) -> set[str]:
    """The labels that stand before a statement."""
    labels = set()
    while isinstance(node, c_ast.Label):
        labels.add(node.name)
        node = node.stmt
    return labels


class Statements(Expressions):
    """Statements, each run for what it does."""

    def run(self, node: c_ast.Node | None) -> None:
        """Runs a statement."""
        self.machine.steps += 1
        if self.machine.steps > MOST_STEPS:
            raise NotReplayed("too long")
        if node is None or isinstance(node, (c_ast.EmptyStatement, c_ast.Typedef)):
            return
        run = getattr(self, f"run_{type(node).__name__}", None)
        if run:
            run(node)
        else:
            self.value(node)

    def run_Compound(self, node: c_ast.Compound) -> None:
        place, items = 0, node.block_items or []
        while place < len(items):
            try:
                self.run(items[place])
                place += 1
            except Goto as jump:
                targets = [i for i, item in enumerate(items) if jump.label in labels_of(item)]
                if not targets:
                    raise
                place = targets[0]

    def run_Label(self, node: c_ast.Label) -> None:
        self.run(node.stmt)

    run_Case = run_Default = lambda self, node: [self.run(s) for s in node.stmts or []]

    def run_Decl(self, node: c_ast.Decl) -> None:
        if node.name and not isinstance(node.type, c_ast.FuncDecl):
            self.assign(node.name, 0 if node.init is None else self.value(node.init))

    def run_DeclList(self, node: c_ast.DeclList) -> None:
        for declared in node.decls:
            self.run(declared)

    def run_If(self, node: c_ast.If) -> None:
        self.run(node.iftrue if self.value(node.cond) != 0 else node.iffalse)

    def run_Return(self, node: c_ast.Return) -> None:
        raise Return(0 if node.expr is None else self.value(node.expr))

    def run_Goto(self, node: c_ast.Goto) -> None:
        raise Goto(node.name)

    def run_Break(self, node: c_ast.Break) -> None:
        raise Break

    def run_Continue(self, node: c_ast.Continue) -> None:
        raise Continue

    def run_While(self, node: c_ast.While) -> None:
        self.loop(None, node.cond, None, node.stmt)

    def run_DoWhile(self, node: c_ast.DoWhile) -> None:
        if self.body(node.stmt):
            self.loop(None, node.cond, None, node.stmt)

    def run_For(self, node: c_ast.For) -> None:
        self.loop(node.init, node.cond, node.next, node.stmt)

    def loop(
        self, first: c_ast.Node | None, cond: c_ast.Node | None, after: c_ast.Node | None, body: c_ast.Node
    ) -> None:
        """Runs a loop."""
        self.run(first)
        while cond is None or self.value(cond) != 0:
            if not self.body(body):
                return
            self.run(after)

    def body(self, node: c_ast.Node) -> bool:
        """Runs the body of a loop once; whether the loop goes on."""
        try:
            self.run(node)
        except BREAKS as jump:
            return isinstance(jump, Continue)
        return True

    def run_Switch(self, node: c_ast.Switch) -> None:
        value, items = self.value(node.cond), node.stmt.block_items or []
        cases = [i for i, item in enumerate(items) if isinstance(item, c_ast.Case) and self.value(item.expr) == value]
        start = cases or [i for i, item in enumerate(items) if isinstance(item, c_ast.Default)]
        try:
            for item in items[start[0] :] if start else []:
                self.run(item)
        except Break:
            return

    def call_function(self, name: str, arguments: list[object]) -> object:
        """Runs a function of the text."""
        machine = self.machine
        tree = parsed(machine.text, machine.definitions[name])
        params = tree.decl.type.args.params if tree.decl.type.args else []
        frame = dict(zip([p.name for p in params if isinstance(p, c_ast.Decl)], arguments))
        for param, value in frame.items():
            machine.name_object(param, value)
        try:
            Statements(machine, frame).run(tree.body)
        except Return as returned:
            return returned.value
        return 0
