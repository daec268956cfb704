"""A function in C: its text, its parameters, and the line of the file in which it stands."""
import re

from agreed import agreed, keeping

PARAMETERS = {
    "b": "Box *b", "l": "PyObject *l", "d": "PyObject *d", "m": "PyObject *m", "x": "PyObject *x", "y": "PyObject *y",
    "n": "int n", "k": "long k",
}
NUMBERS = ["n", "k"]


def names_in(text):
    """Those of the parameters that a text names."""
    return [it for it in PARAMETERS if re.search(rf"\b{it}\b", text)]


class Function:
    """A function with some of the parameters."""

    def __init__(self, name, body, parameters, result="PyObject *", convention=None):
        self.name, self.parameters, self.body, self.convention = name, parameters, body, convention
        self.head = f"{result}{'' if result.endswith('*') else ' '}{name}({self.declared() or 'void'})"
        self.is_object = result == "PyObject *"
        self.text = self.line = f"{self.head} {{ {body} }}"

    def declared(self):
        return ", ".join(PARAMETERS[it] for it in self.parameters)

    def with_all(self):
        """A function with all parameters that calls this one, and returns an object, or NULL where this one returns none."""
        head = f"PyObject *run_{self.name}({', '.join(PARAMETERS.values())})"
        call = f"{self.name}({', '.join(self.parameters)})"
        if self.convention:
            return self.convention.caller(head, call)
        return f"{head} {{ return {call}; }}" if self.is_object else f"{head} {{ {call}; return 0; }}"


def made(name, body, rng):
    """A function with all parameters, or at most times with those that it uses."""
    used = names_in(body)
    return Function(name, body, used if used and rng.random() < 0.8 else list(PARAMETERS))


def under_convention(function, rng):
    """The function under a convention that is declared for it, if one is, which most of its returns keep."""
    convention = agreed(function.name, function.parameters, rng)
    if not convention:
        return function
    body = keeping(function.body, convention.taken, convention.borrowed, rng)
    return Function(function.name, body, function.parameters, convention=convention)
