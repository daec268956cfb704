"""Sets of vectors by linear algebra over fractions: spans, and affine hulls (Karr 1976).

Coordinate 0 is the leading one: a state of a program is a vector in which it is 1."""
from fractions import Fraction


def dot(equation, vector):
    return sum((a * b for a, b in zip(equation, vector) if a and b), Fraction(0))


def less(vector, factor, other):
    return [a - factor * b if b else a for a, b in zip(vector, other)] if factor else vector


class Span:
    """The vectors that are sums of multiples of the rows, which are in reduced echelon form, by their pivots."""

    def __init__(self, width, vectors=()):
        self.width, self.rows = width, {}
        for vector in vectors:
            self.add(vector)

    def add(self, vector):
        for pivot, row in self.rows.items():
            if vector[pivot]:
                vector = less(vector, vector[pivot], row)
        pivot = next((i for i, entry in enumerate(vector) if entry), None)
        if pivot is None:
            return
        row = [entry / vector[pivot] for entry in vector]
        self.rows = {i: less(other, other[pivot], row) for i, other in self.rows.items()}
        self.rows[pivot] = row

    def vectors(self):
        return list(self.rows.values())

    def dimension(self):
        return len(self.rows)

    def join(self, other):
        joined = type(self)(self.width)
        joined.rows = dict(self.rows)
        for vector in other.vectors():
            joined.add(vector)
        return joined

    def meet(self, equation):
        """The vectors that meet an equation."""
        vectors = self.vectors()
        first = next((it for it in vectors if dot(equation, it)), None)
        if first is None:
            return self
        others = [less(it, dot(equation, it) / dot(equation, first), first) for it in vectors if it is not first]
        return type(self)(self.width, others)

    def assign(self, place, form):
        """What becomes of the vectors where a coordinate gets the value of a form."""
        return type(self)(self.width, [[*it[:place], dot(form, it), *it[place + 1 :]] for it in self.vectors()])

    def free(self, place):
        """What becomes of them where a coordinate gets any number."""
        if not self.rows:
            return self
        return type(self)(self.width, self.vectors() + [[Fraction(i == place) for i in range(self.width)]])

    def implies(self, equation):
        return not any(dot(equation, it) for it in self.vectors())


class Hull(Span):
    """A span that stands for the states in it: where it has none, it has no vectors."""

    def meet(self, equation):
        met = super().meet(equation)
        return met if 0 in met.rows else Hull(self.width)
