"""Functions with loops that count: their trees, and their text in C.

A function has objects (its parameters x and y, and others that it makes), numbers that it gets and never changes (its
parameters n and k), and numbers of its own, which are all of one type and begin with 0."""
from dataclasses import dataclass, field


@dataclass(frozen=True)
class Sum:
    """A linear sum: factors with their variables, and a constant."""

    terms: tuple = ()
    constant: int = 0

    def variables(self):
        return {name for _, name in self.terms}


@dataclass
class Comparison:
    left: Sum
    operator: str
    right: Sum


@dataclass
class Assign:
    """A number gets the value of a sum. Where it can be, a short form is written, as i++ and j += 2."""

    variable: str
    value: Sum
    is_short: bool = False


@dataclass
class Multiply:
    """A number gets the product of two."""

    variable: str
    left: str
    right: str


@dataclass
class Count:
    """So many references to an object are taken (1) or given back (-1)."""

    object: str
    change: int


@dataclass
class Create:
    """An object is made; where it isn't, other statements are done."""

    object: str
    call: str
    failing: list


@dataclass
class If:
    condition: Comparison
    then: list
    other: list = field(default_factory=list)


@dataclass
class Loop:
    """A loop by its word: for, while or do. Only a for has a first and a last assignment."""

    word: str
    first: Assign
    condition: Comparison
    last: Assign
    body: list


@dataclass
class Leave:
    """break or continue"""

    word: str


@dataclass
class Return:
    """An object is returned, or none."""

    object: str = None


@dataclass
class Function:
    result: str
    kind: str
    numbers: list
    made: list
    body: list


def blocks(body):
    """All lists of statements in a list of statements, itself among them."""
    yield body
    for it in body:
        for part in ("then", "other", "failing", "body"):
            yield from blocks(getattr(it, part, [])) if hasattr(it, part) else ()


# ---- text


def term(factor, name, is_first):
    sign = ("-" if factor < 0 else "") if is_first else (" - " if factor < 0 else " + ")
    return sign + (name if abs(factor) == 1 else f"{abs(factor)} * {name}")


def sum_text(it):
    """A sum as it is computed, from left to right."""
    text = "".join(term(factor, name, i == 0) for i, (factor, name) in enumerate(it.terms))
    if not text:
        return str(it.constant)
    return text + (f" {'-' if it.constant < 0 else '+'} {abs(it.constant)}" if it.constant else "")


def comparison_text(it):
    return f"{sum_text(it.left)} {it.operator} {sum_text(it.right)}"


def assign_text(it):
    """An assignment without its semicolon."""
    change = it.value.constant
    if not it.is_short or it.value.terms != ((1, it.variable),) or not change:
        return f"{it.variable} = {sum_text(it.value)}"
    if abs(change) == 1:
        return it.variable + ("++" if change > 0 else "--")
    return f"{it.variable} {'+' if change > 0 else '-'}= {abs(change)}"


def loop_text(it, result):
    body = f"{{ {text_of(it.body, result)} }}"
    test = comparison_text(it.condition)
    if it.word == "do":
        return f"do {body} while ({test});"
    if it.word == "while":
        return f"while ({test}) {body}"
    return f"for ({assign_text(it.first)}; {test}; {assign_text(it.last)}) {body}"


def if_text(it, result):
    other = f" else {{ {text_of(it.other, result)} }}" if it.other else ""
    return f"if ({comparison_text(it.condition)}) {{ {text_of(it.then, result)} }}{other}"


def text_of_one(it, result):
    if isinstance(it, Assign):
        return assign_text(it) + ";"
    if isinstance(it, Multiply):
        return f"{it.variable} = {it.left} * {it.right};"
    if isinstance(it, Count):
        return f"{'Py_INCREF' if it.change > 0 else 'Py_DECREF'}({it.object});"
    if isinstance(it, Create):
        return f"{it.object} = {it.call}; if ({it.object} == NULL) {{ {text_of(it.failing, result)} }}"
    if isinstance(it, If):
        return if_text(it, result)
    if isinstance(it, Loop):
        return loop_text(it, result)
    if isinstance(it, Leave):
        return f"{it.word};"
    return "return;" if result == "void" else f"return {it.object or 'NULL'};"


def text_of(body, result):
    return " ".join(text_of_one(it, result) for it in body)


def body_text(function):
    """The declarations and statements of a function."""
    declared = [f"{function.kind} {name} = 0;" for name in function.numbers]
    declared += [f"PyObject *{name};" for name in function.made]
    return " ".join(declared + [text_of(function.body, function.result)])
