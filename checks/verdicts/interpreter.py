"""Runs of a function with loops that count, by its tree."""
from counted import Assign, Count, If, Leave, Loop, Multiply

# A run that takes more steps than these is given up.
MOST_STEPS = 300

RANGES = {"int": 2**31, "long": 2**63}

COMPARED = {
    "<": lambda a, b: a < b, "<=": lambda a, b: a <= b, ">": lambda a, b: a > b, ">=": lambda a, b: a >= b,
    "==": lambda a, b: a == b, "!=": lambda a, b: a != b,
}


class Stopped(Exception):
    """A number overflows, references to NULL are counted, or the run is given up."""


class Left(Exception):
    """A loop is left early, or gone on with."""

    def __init__(self, word):
        super().__init__(word)
        self.word = word


class Returned(Exception):
    def __init__(self, back):
        super().__init__(back)
        self.object = back


class Run:
    """A run over these numbers, where these of x and y are NULL. What x and y are owed is counted apart."""

    def __init__(self, function, n, k, nulls=()):
        self.function, self.nulls, self.steps = function, nulls, 0
        self.numbers = {"n": n, "k": k, **{name: 0 for name in function.numbers}}
        self.owed = {"x": 0, "y": 0}

    def end(self):
        """What is owed at the return, less what is returned, of x and of y; or None where there is no return."""
        try:
            self.block(self.function.body)
            return dict(self.owed)
        except Returned as it:
            return {name: count - (name == it.object) for name, count in self.owed.items()}
        except Stopped:
            return None

    def within(self, number):
        limit = RANGES[self.function.kind]
        if not -limit <= number < limit:
            raise Stopped
        return number

    def value(self, it):
        """The value of a sum, computed as its text is."""
        total = None
        for factor, name in it.terms:
            size = self.within(abs(factor) * self.numbers[name])
            signed = self.within(size if factor > 0 else -size)
            total = signed if total is None else self.within(total + signed)
        return it.constant if total is None else self.within(total + it.constant)

    def holds(self, it):
        return COMPARED[it.operator](self.value(it.left), self.value(it.right))

    def block(self, body):
        for it in body:
            self.step(it)

    def step(self, it):
        self.steps += 1
        if self.steps > MOST_STEPS:
            raise Stopped
        if isinstance(it, Assign):
            self.numbers[it.variable] = self.value(it.value)
        elif isinstance(it, Multiply):
            self.numbers[it.variable] = self.within(self.numbers[it.left] * self.numbers[it.right])
        elif isinstance(it, Count):
            if it.object in self.nulls:
                raise Stopped
            self.owed[it.object] += it.change
        elif isinstance(it, If):
            self.block(it.then if self.holds(it.condition) else it.other)
        elif isinstance(it, Loop):
            self.loop(it)
        elif isinstance(it, Leave):
            raise Left(it.word)
        else:
            raise Returned(it.object)

    def loop(self, it):
        if it.first:
            self.step(it.first)
        goes_on = it.word == "do" or self.holds(it.condition)
        while goes_on:
            goes_on = self.turn(it) and self.holds(it.condition)

    def turn(self, it):
        """One turn, and whether the loop may go on."""
        self.steps += 1
        if self.steps > MOST_STEPS:
            raise Stopped
        try:
            self.block(it.body)
        except Left as left:
            if left.word == "break":
                return False
        if it.last:
            self.step(it.last)
        return True
