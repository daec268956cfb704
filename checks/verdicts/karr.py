"""The linear equations between the numbers and the balances of a function with loops that count (Karr 1976).

The coordinates are the leading one, the numbers that the function gets, its own, and the balances of x and y. Where two
ways meet the span of both goes on; of a comparison only an equation is used, where it holds; an assignment is exact,
unless a product with a constant is to be any number."""
from fractions import Fraction

from counted import Assign, Count, If, Leave, Loop, Multiply

# When a comparison says that both sides are equal: where it holds, and where it doesn't.
EQUAL_WHERE_TRUE, EQUAL_WHERE_FALSE = {"=="}, {"!="}


class Frame:
    """What leaves the body of a loop early."""

    def __init__(self, nothing):
        self.left = {"break": nothing, "continue": nothing}


class Analysis:
    """Whether equations show that nothing is owed at each return, in a domain of spans."""

    def __init__(self, function, domain, has_products=True):
        self.names = ["1", "n", "k", *function.numbers, "x", "y"]
        self.function, self.domain, self.has_products = function, domain, has_products
        self.is_balanced = True
        self.nothing = domain(len(self.names))
        self.frames = []

    def shows_balance(self):
        # at first: any n and k; the others are 0
        start = self.domain(len(self.names), [self.unit("1"), self.unit("n"), self.unit("k")])
        # a function without a return at its end returns there
        self.at_return(self.block(self.function.body, start), None)
        return self.is_balanced

    # ---- forms

    def place(self, name):
        return self.names.index(name)

    def unit(self, name, factor=1):
        form = [Fraction(0)] * len(self.names)
        form[self.place(name)] = Fraction(factor)
        return form

    def form(self, value):
        form = self.unit("1", value.constant)
        for factor, name in value.terms:
            form[self.place(name)] += factor
        return form

    def is_linear(self, value):
        return self.has_products or all(abs(factor) == 1 for factor, _ in value.terms)

    def difference(self, condition):
        return [a - b for a, b in zip(self.form(condition.left), self.form(condition.right))]

    # ---- statements

    def where(self, condition, holds, state):
        equal = EQUAL_WHERE_TRUE if holds else EQUAL_WHERE_FALSE
        is_linear = self.is_linear(condition.left) and self.is_linear(condition.right)
        return state.meet(self.difference(condition)) if condition.operator in equal and is_linear else state

    def at_return(self, state, back):
        """At a return each balance is 0, and that of what is returned 1."""
        for it in ("x", "y"):
            duty = self.unit(it)
            duty[0] -= it == back
            self.is_balanced = self.is_balanced and state.implies(duty)

    def block(self, body, state):
        for it in body:
            state = self.statement(it, state)
        return state

    def statement(self, it, state):
        if isinstance(it, Assign) and self.is_linear(it.value):
            return state.assign(self.place(it.variable), self.form(it.value))
        if isinstance(it, (Assign, Multiply)):
            return state.free(self.place(it.variable))
        if isinstance(it, Count):
            form = self.unit(it.object)
            form[0] += it.change
            return state.assign(self.place(it.object), form)
        if isinstance(it, If):
            then = self.block(it.then, self.where(it.condition, True, state))
            return then.join(self.block(it.other, self.where(it.condition, False, state)))
        if isinstance(it, Loop):
            return self.do_loop(it, state) if it.word == "do" else self.test_loop(it, state)
        if isinstance(it, Leave):
            left = self.frames[-1].left
            left[it.word] = left[it.word].join(state)
            return self.nothing
        self.at_return(state, it.object)
        return self.nothing

    # ---- loops

    def turn(self, loop, state):
        """What ends the body, what goes on from there or by continue, and what leaves by break."""
        self.frames.append(Frame(self.nothing))
        end = self.block(loop.body, state)
        left = self.frames.pop().left
        return end.join(left["continue"]), left["break"]

    def test_loop(self, loop, state):
        if loop.first:
            state = self.statement(loop.first, state)
        while True:
            end, broken = self.turn(loop, self.where(loop.condition, True, state))
            after = state.join(self.statement(loop.last, end) if loop.last else end)
            if after.dimension() == state.dimension():
                return self.where(loop.condition, False, state).join(broken)
            state = after

    def do_loop(self, loop, state):
        while True:
            end, broken = self.turn(loop, state)
            after = state.join(self.where(loop.condition, True, end))
            if after.dimension() == state.dimension():
                return self.where(loop.condition, False, end).join(broken)
            state = after
