"""Functions with declared conventions: some lend what they return, some take over the references of parameters. Most of them do what
was declared; a caller that knows the convention gives a reference for each that is taken over, and takes one to what is lent."""
import re

# What may be declared of a parameter, and how often.
OBJECTS = ["x", "y", "d", "l", "m"]

# The returns of a function: each gives up what was taken over, and a reference to what is lent.
RETURN = re.compile(r"return ([^;]*);")


def ended(value, taken, borrowed):
    """What a return does by a convention."""
    drops = "".join(f" Py_XDECREF({it});" for it in taken)
    if not borrowed:
        return f"{{ PyObject *back = {value};{drops} return back; }}"
    return f"{{ PyObject *back = {value};{drops} Py_XDECREF(back); return back; }}"


def keeping(body, taken, borrowed, rng):
    """A body that keeps a convention at each return, or, one time in four, at some of them alone."""
    always = rng.random() < 0.75
    plain = body.replace("Py_RETURN_NONE;", "return Py_NewRef(Py_None);")
    return RETURN.sub(lambda it: ended(it[1], taken, borrowed) if always or rng.random() < 0.7 else it[0], plain)


class Agreed:
    """What is declared of a function."""

    def __init__(self, name, taken, borrowed):
        self.name, self.taken, self.borrowed = name, taken, borrowed

    def table(self, parameters):
        """Its table in a configuration."""
        numbers = [parameters.index(it) + 1 for it in self.taken]
        keys = [f"takes = {numbers}"] if numbers else []
        return "\n".join([f"[convention.{self.name}]", *keys, *(['returns = "borrowed"'] if self.borrowed else [])]) + "\n"

    def caller(self, head, call):
        """A function with this head whose call keeps the convention."""
        gives = "".join(f" Py_XINCREF({it});" for it in self.taken)
        takes = " Py_XINCREF(back);" if self.borrowed else ""
        return f"{head} {{{gives} PyObject *back = {call};{takes} return back; }}"


def agreed(name, parameters, rng):
    """A convention for a function with these parameters, or none."""
    there = [it for it in OBJECTS if it in parameters]
    taken = rng.sample(there, min(len(there), rng.choice([0, 1, 1, 1, 2])))
    borrowed = rng.random() < 0.4
    return Agreed(name, taken, borrowed) if taken or borrowed else None
