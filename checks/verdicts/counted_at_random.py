"""Random functions with loops that count.

Most are made such that each run is balanced: what a loop takes is given back by another, so many times as a number says
that a counter or a sum holds, and early exits give it back too. Then some are spoiled. Others are made of any statements."""
from dataclasses import dataclass

from counted import Assign, Comparison, Count, Create, Function, If, Leave, Loop, Multiply, Return, Sum, blocks

NAMES = ["i", "j", "s", "t", "u", "v", "w", "c", "e", "g", *(f"a{number}" for number in range(20))]
OPERATORS = ["<", "<=", ">", ">=", "==", "!="]
CALLS = ["PyList_New(0)", "PyDict_New()", "PyLong_FromLong(1000003)", "Py_NewRef(x)"]
MOST_NUMBERS = 10
MOST_MADE = 2


def named(name):
    return Sum(((1, name),))


def plus(value, number):
    return Sum(value.terms, value.constant + number)


@dataclass
class Debt:
    """References to an object that were taken (or given away, where the sign is -1): so many as a sum says."""

    object: str
    count: Sum
    sign: int


class Maker:
    """Makes one function."""

    def __init__(self, rng, kind, result, makes_objects):
        self.rng, self.kind, self.result = rng, kind, result
        self.numbers, self.made, self.debts, self.flags = [], [], [], set()
        self.busy, self.objects = set(), ["x", "y"]
        self.most_made = MOST_MADE if makes_objects else 0

    def chance(self, part):
        return self.rng.random() < part

    # ---- numbers

    def protected(self):
        """The numbers that mustn't change: those of loops that are being made, and those that count debts."""
        return self.busy.union(*(debt.count.variables() for debt in self.debts))

    def number(self):
        """A number that may change: one that is there, or a new one."""
        loose = [it for it in self.numbers if it not in self.protected()]
        if loose and (self.chance(0.6) or len(self.numbers) >= MOST_NUMBERS):
            return self.rng.choice(loose)
        name = NAMES[len(self.numbers)]
        self.numbers.append(name)
        return name

    def sum(self, most=2):
        names = self.rng.sample([*self.numbers, "n", "k"], min(self.rng.randint(0, most), len(self.numbers) + 2))
        terms = tuple((self.rng.choice([1, 1, 1, -1, 2]), name) for name in names)
        return Sum(terms, self.rng.choice([0, 0, 0, 1, -1, 2, 3]))

    def bound(self):
        """How many turns a loop may have: a sum of what never changes."""
        n, k = named("n"), named("k")
        return self.rng.choice([n, n, n, k, k, plus(n, 1), Sum(n.terms + k.terms), Sum(((2, "n"),)), plus(k, -1)])

    def comparison(self):
        left = named(self.rng.choice([*self.numbers, "n", "k"])) if self.chance(0.8) else self.sum()
        return Comparison(left, self.rng.choice(OPERATORS), self.sum(1))

    # ---- statements that change no balance

    def assign(self):
        name = self.number()
        if self.chance(0.08):
            return Multiply(name, *(self.rng.choice([*self.numbers, "n", "k"]) for _ in range(2)))
        value = plus(named(name), self.rng.choice([1, -1, 2])) if self.chance(0.4) else self.sum()
        return Assign(name, value, self.chance(0.7))

    def noise(self, depth=0):
        kind = self.rng.random()
        if kind < 0.5:
            return [self.assign()]
        if kind < 0.65 or depth > 1:
            it = self.rng.choice(self.objects)
            return [Count(it, 1), Count(it, -1)]
        if kind < 0.8:
            return [If(self.comparison(), self.noise(depth + 1), self.noise(depth + 1) if self.chance(0.5) else [])]
        return self.loop(self.bound(), self.chance(0.3), lambda _: self.noise(depth + 1))

    def some_noise(self, part):
        return self.noise() if self.chance(part) else []

    # ---- loops

    def loop(self, bound, is_exact, body_by):
        """A loop with so many turns, or so many at most, whose body is made for its counter."""
        i = self.number()
        self.busy.add(i)
        body = body_by(i)
        self.busy.discard(i)
        rises, zero = self.chance(0.6), Sum()
        test = "!=" if is_exact or self.chance(0.3) else "<" if rises else ">"
        condition = Comparison(named(i), test, bound if rises else zero)
        first, last = Assign(i, zero if rises else bound), Assign(i, plus(named(i), 1 if rises else -1), self.chance(0.7))
        if self.chance(0.6):
            return [Loop("for", first, condition, last, body)]
        return [first, Loop("while", None, condition, None, body + [last])]

    def any_loop(self, body_by):
        """A loop of which nothing is promised."""
        if self.chance(0.75):
            return self.loop(self.bound(), False, body_by)
        return [Loop(self.rng.choice(["while", "do"]), None, self.comparison(), None, body_by(None) + self.some_noise(0.7))]

    # ---- references that are taken

    def take(self):
        kind = self.rng.random()
        if kind < 0.4:
            return self.take_counted()
        if kind < 0.7:
            return self.take_by_bound()
        if kind < 0.8:
            return self.take_nested()
        if kind < 0.9:
            return self.take_by_flag()
        if kind < 0.97 and len(self.made) < self.most_made:
            return self.make_object()
        it, sign = self.rng.choice(self.objects), self.sign()
        self.debts.append(Debt(it, Sum((), 1), sign))
        return [Count(it, sign)]

    def sign(self):
        return 1 if self.chance(0.85) else -1

    def some_objects(self):
        return self.rng.sample(self.objects, self.rng.choice([1, 1, 2]))

    def take_counted(self):
        """A loop of any form, with a number that counts what it takes."""
        j = self.number()
        start, self.debts = [Assign(j, Sum())], self.debts + [Debt(it, named(j), self.sign()) for it in self.some_objects()]
        counts = [Count(debt.object, debt.sign) for debt in self.debts if debt.count == named(j)]
        return start + self.any_loop(lambda _: self.counted_body(j, counts))

    def counted_body(self, j, counts):
        steps = [*counts, Assign(j, plus(named(j), 1), self.chance(0.7))]
        self.rng.shuffle(steps)
        if self.chance(0.3):
            steps = [If(self.comparison(), steps, self.some_noise(0.4))]
        return self.some_exit(0.3) + self.some_object_within() + steps + self.some_noise(0.4) + self.some_exit(0.15)

    def take_by_bound(self):
        """A loop that takes as many as its bound says."""
        objects, bound, sign = self.some_objects(), self.bound(), self.sign()
        made = self.loop(bound, self.chance(0.9), lambda _: [Count(it, sign) for it in objects] + self.some_noise(0.3))
        self.debts += [Debt(it, bound, sign) for it in objects]
        return made

    def take_nested(self):
        """A loop within a loop, and a sum of the inner one's turns."""
        j, it = self.number(), self.rng.choice(self.objects)
        self.debts.append(Debt(it, named(j), 1))

        def body(i):
            turns = self.rng.choice([named(i), plus(named(i), 1), named("n")]) if i else named("k")
            inner = self.loop(turns, self.chance(0.9), lambda _: [Count(it, 1)])
            return inner + [Assign(j, Sum(((1, j),) + turns.terms, turns.constant))] + self.some_noise(0.3)

        return [Assign(j, Sum())] + self.any_loop(body)

    def take_by_flag(self):
        """Takes one reference, or none, as a number says from then on."""
        f, it, sign = self.number(), self.rng.choice(self.objects), self.sign()
        made = [Assign(f, Sum()), If(self.comparison(), [Count(it, sign), Assign(f, Sum((), 1))])]
        self.flags.add(f)
        self.debts.append(Debt(it, named(f), sign))
        return made

    def make_object(self):
        it = f"p{len(self.made)}"
        self.made.append(it)
        made = [Create(it, self.rng.choice(CALLS), self.way_out())]
        self.objects.append(it)
        self.debts.append(Debt(it, Sum((), 1), 1))
        return made

    def some_object_within(self):
        """In a loop: an object that is made and given back in each turn, perhaps."""
        if len(self.made) >= self.most_made or not self.chance(0.3):
            return []
        made = self.make_object()
        debt = self.debts.pop()
        self.objects.remove(debt.object)
        return made + [Count(debt.object, -1)]

    # ---- references that are given back

    def some_exit(self, part):
        """In a loop: a way out of it or of the function, perhaps."""
        if not self.chance(part):
            return []
        return [If(self.comparison(), [self.leave()] if self.chance(0.6) else self.way_out())]

    def leave(self):
        return Leave(self.rng.choice(["break", "break", "continue"]))

    def way_out(self):
        return self.give_all() + [Return()]

    def give_all(self):
        made, pending = [], self.rng.sample(self.debts, len(self.debts))
        while pending:
            debt = pending.pop()
            same = [it for it in pending if it.count == debt.count and self.chance(0.5)]
            pending = [it for it in pending if not any(it is other for other in same)]
            made += self.give([debt, *same])
        return made

    def give(self, debts):
        """Gives back debts of one count."""
        count, body = debts[0].count, [Count(it.object, -it.sign) for it in debts]
        if not count.terms:
            return body * count.constant
        if count.variables() <= self.flags and self.chance(0.7):
            test, other = self.rng.choice([("!=", 0), ("==", 1), (">", 0)])
            return [If(Comparison(count, test, Sum((), other)), body)]
        return self.loop(count, self.chance(0.85), lambda _: body + self.some_noise(0.2))

    # ---- functions

    def end(self):
        loose = [it for it in self.debts if it.count == Sum((), 1) and it.sign == 1]
        if self.result == "void" or not loose or self.chance(0.3):
            return self.way_out()
        back = self.rng.choice(loose)
        self.debts = [it for it in self.debts if it is not back]
        return self.give_all() + [Return(back.object)]

    def balanced(self):
        body = self.some_noise(0.4)
        for _ in range(self.rng.randint(1, 3)):
            body += self.take() + self.some_noise(0.4)
            if self.chance(0.3):
                body.append(If(self.comparison(), self.way_out()))
            if self.chance(0.1):
                body += self.never()
        return body + self.end()

    def never(self):
        """Statements that are never done, as a number is what it was set to just before, and what would be owed there."""
        f = self.number()
        value, test, other = self.rng.choice([(0, ">", 0), (1, "<", 1), (-1, "!=", -1), (0, "==", 1), (5, "==", 3), (2, "<", 1)])
        wrong = [Count(self.rng.choice(self.objects), 1)] + ([Return()] if self.chance(0.5) else [])
        return [Assign(f, Sum((), value)), If(Comparison(named(f), test, Sum((), other)), wrong)]

    def any_statements(self, depth, is_in_loop):
        made = []
        for _ in range(self.rng.randint(1, 3)):
            kind = self.rng.random()
            if kind < 0.35:
                made.append(Count(self.rng.choice(self.objects), self.rng.choice([1, -1])))
            elif kind < 0.6 or depth > 2:
                made.append(self.assign())
            elif kind < 0.75:
                made.append(If(self.comparison(), self.any_statements(depth + 1, is_in_loop)))
            elif kind < 0.8 and is_in_loop:
                made.append(If(self.comparison(), [self.leave()]))
            else:
                made += self.any_loop(lambda _: self.any_statements(depth + 1, True))
        return made


def spoil_one(body, rng):
    """Changes one statement, if there is one besides what is made and returned."""
    places = [(block, i) for block in blocks(body) for i, it in enumerate(block) if not isinstance(it, (Create, Return))]
    if not places:
        return
    block, i = rng.choice(places)
    it = block[i]
    if isinstance(it, Assign):
        block[i] = Assign(it.variable, plus(it.value, rng.choice([1, -1])))
    elif isinstance(it, Count) and rng.random() < 0.5:
        block[i] = Count(rng.choice(["x", "y"]), rng.choice([it.change, it.change, -it.change]))
    elif isinstance(it, (If, Loop)) and rng.random() < 0.7:
        it.condition = Comparison(it.condition.left, rng.choice(OPERATORS), plus(it.condition.right, rng.choice([0, 0, 1])))
    elif isinstance(it, Count):
        block.insert(i, it)
    else:
        del block[i]


def function(rng, kind, makes_objects=False):
    """A function whose numbers have this type."""
    result = "PyObject *" if makes_objects else rng.choice(["void", "PyObject *"])
    maker = Maker(rng, kind, result, makes_objects)
    if rng.random() < 0.2:
        body = maker.any_statements(0, False) + [Return()]
    else:
        body = maker.balanced()
        if rng.random() < 0.35:
            spoil_one(body, rng)
    return Function(result, kind, maker.numbers, maker.made, body)
