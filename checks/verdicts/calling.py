"""Random functions that call one another.

A group has helpers on up to three levels, which call those of the levels below, and functions that call them. A helper is of
some kind: it makes a reference, borrows, takes or gives one, keeps a value or takes it over, computes or tests something, or
changes numbers. In a body calls of helpers stand in the place of what does such a thing by itself. Now and then a helper
calls itself, two call each other, or there is a level more."""
import re

import counted
import counted_at_random
import using_api
from function import Function, made, names_in

# What helpers of each kind return, and some bodies. Where they get a value it is x.
KINDS = {
    "new": ("PyObject *", [
        "return PyLong_FromLong(1000003);", "return PyList_New(0);", "return Py_XNewRef(x);", "Py_XINCREF(kept); return kept;",
        "if (x == NULL) return NULL; Py_INCREF(x); return x;", "PyObject *p = PyDict_New(); if (p == NULL) return NULL; return p;",
        "PyObject *p = PyObject_Str(x); if (p == NULL) { PyErr_Clear(); Py_RETURN_NONE; } return p;",
        "if (n < 1) return NULL; return PyNumber_Add(x, y);", "x = b->first; if (x) Py_INCREF(x); return x;",
    ]),
    "borrowed": ("PyObject *", [
        "return PyList_GetItem(l, 1);", 'return PyDict_GetItemString(d, "there");', "return b->first;", "return kept;", "return x;",
        "if (n < 1) return y; return x;", "PyObject *p = PyDict_GetItem(d, x); if (p == NULL) return y; return p;",
        "return x == y ? NULL : x;", "PyObject *p = PyList_GetItem(l, 0); if (p == NULL) PyErr_Clear(); return p;",
    ]),
    "take": ("void", [
        "Py_INCREF(x);", "Py_XINCREF(x);", "if (x == NULL) return; Py_INCREF(x);", "PyObject *p = Py_XNewRef(x); if (p == NULL) return;",
        "Py_INCREF(x); Py_INCREF(x); Py_DECREF(x);", "int i; for (i = 0; i < 1; i++) Py_INCREF(x);",
    ]),
    "give": ("void", [
        "Py_DECREF(x);", "Py_XDECREF(x);", "if (x != NULL) Py_DECREF(x);", "PyObject *p = x; x = NULL; Py_XDECREF(p);",
        "do Py_DECREF(x); while (0);", "if (PyList_Append(l, x) < 0) PyErr_Clear(); Py_DECREF(x);",
        "if (n < 1) { Py_DECREF(x); return; } Py_XDECREF(x);",
    ]),
    "keep": ("int", [
        "return PyList_Append(l, x);", "if (PyDict_SetItem(d, y, x) < 0) return -1; return 0;",
        'return PyModule_AddObjectRef(m, "name", x);', "int r = PyList_Insert(l, 0, x); if (r < 0) PyErr_Clear(); return r;",
        "PyObject *old = kept; Py_XINCREF(x); kept = x; Py_XDECREF(old); return 0;",
        "PyObject *old = b->first; Py_INCREF(x); b->first = x; Py_XDECREF(old); return n < 1 ? 0 : -1;",
    ]),
    "steal": ("int", [
        "return PyList_SetItem(l, 0, x);", "if (PyTuple_SetItem(l, 0, x) < 0) return -1; return 0;", "Py_XDECREF(x); return 0;",
        'if (PyModule_AddObject(m, "name", x) < 0) { Py_DECREF(x); return -1; } return 0;',
        "PyObject *old = kept; kept = x; Py_XDECREF(old); return 0;",
    ]),
    "number": ("int", [
        "return n;", "return n * 2;", "return mode;", "if (n < 1) return -1; return 1;", "return n == 3;", "return n - 1;",
        "while (n > 2) n--; return n;", "int i; for (i = 0; i < n; i++) { if (i == 1) break; } return i;", "mode = n; return mode;",
    ]),
    "long": ("long", ["return k;", "return b->size;", "return PyObject_Size(l);", "k = k + 1; return k;", "return n < 1 ? k : -1;"]),
    "test": ("int", [
        "return x == y;", "return PyObject_IsTrue(x);", "return PyObject_RichCompareBool(x, y, 2);", "return x != NULL && n > 0;",
        "if (x == y) return -1; return 0;",
    ]),
    "change": ("void", [
        "b->size = b->size + 1;", "mode = n;", "b->size = n; mode = 3;", "n = n + 1; k = n;", "if (n < k) mode = 5;",
        "PyObject *old = b->first; Py_XINCREF(x); b->first = x; Py_XDECREF(old);", "PyObject *old = kept; kept = NULL; Py_XDECREF(old);",
    ]),
}
WITH_VALUE = {"take", "give", "keep", "steal"}
WRONG = ["Py_XINCREF(x);", "Py_XDECREF(x);", "Py_XINCREF(y);", "if (n == 1) Py_XINCREF(y);", "if (x == y) Py_XDECREF(x);"]
# A helper that calls itself does so a few times.
AGAIN = "if (n > 0 && n < 4) "


def any_of(texts):
    return "|".join(re.escape(it) for it in sorted(texts, key=len, reverse=True))


def any_with_value(texts):
    return "|".join(re.escape(it).replace("V", r"(?P<v{}>\w+)".format(i)) for i, it in enumerate(texts))


# In whose place a helper of this kind is called; a value stands in a group.
PLACES = [
    ("new", re.compile(rf"(?<== )(?:{any_of(using_api.NEW)})(?=;)")),
    ("borrowed", re.compile(rf"(?<=\d = )(?:{any_of(using_api.BORROWED)})(?=;)")),
    ("take", re.compile(r"Py_X?INCREF\((?P<v0>\w+)\)(?=;)")), ("give", re.compile(r"Py_X?DECREF\((?P<v0>\w+)\)(?=;)")),
    ("keep", re.compile(rf"(?:{any_with_value(using_api.KEEPS)})(?= < 0)")),
    ("steal", re.compile(rf"(?:{any_with_value(using_api.TAKES)})(?= < 0)")),
    ("number", re.compile(r"(?<=\()n(?= [<>=!])|(?<=[nk] = )n(?=;)")),
    ("long", re.compile(rf"(?<=\d = )(?:{any_of(using_api.NUMBERS)})(?=;)|(?<=\()k(?= [<>=!])")),
    ("test", re.compile(rf"x == y|(?:{any_of(using_api.OTHERS)})(?= < 0)")),
    ("change", re.compile(rf"(?<=[;{{}}] )(?:{any_of(it[:-1] for it in using_api.CHANGES + using_api.COMPUTED)})(?=;)")),
]


class Helper(Function):
    """A helper of some kind."""

    def __init__(self, name, kind, body, parameters):
        super().__init__(name, body, parameters, KINDS[kind][0])
        self.kind = kind


def argument(name, rng):
    """What stands for a parameter of this name in a call."""
    if rng.random() < 0.8:
        return name
    return {"x": rng.choice(["x", "y", "NULL"]), "y": rng.choice(["x", "y", "l"]), "n": rng.choice(["n", "n + 1", "0", "1", "2"]),
            "k": rng.choice(["k", "n", "k - 1", "5"])}.get(name, name)


def call(helper, rng, value=None):
    """A call of a helper, with this value."""
    given = [value if value and it == "x" else argument(it, rng) for it in helper.parameters]
    return f"{helper.name}({', '.join(given)})"


def with_calls(body, helpers, part, rng):
    """A body with calls of helpers in this part of the places where they fit."""
    for kind, place in PLACES:
        fit = [it for it in helpers if it.kind == kind]
        if fit:
            body = place.sub(lambda at: replaced(at, fit, part, rng), body)
    return body


def replaced(at, helpers, part, rng):
    if rng.random() > part:
        return at[0]
    return call(rng.choice(helpers), rng, next((it for it in at.groupdict().values() if it), None))


def calls(body):
    """The helpers that a body calls, by their names."""
    return set(re.findall(r"\bh\d+_\d+(?=\()", body))


# ---- helpers


def again(name, result, parameters):
    """A statement by which a function goes on in the one of this name, with a smaller n."""
    going = f"{name}({', '.join('n - 1' if it == 'n' else it for it in parameters)})"
    return f"{AGAIN}{{ {going}; return; }} " if result == "void" else f"{AGAIN}return {going}; "


def helper_body(kind, helpers, rng, other):
    """A body of this kind, which at most times does what it should, with other parts in the place of some."""
    if kind == "new" and rng.random() < 0.4:
        body = other(using_api.body(rng, most=rng.choice([1, 1, 2]), spoils=0.15), rng)
    else:
        body = rng.choice(KINDS[kind][1])
        if rng.random() < 0.1:
            body = f"{rng.choice(WRONG)} {body}"
    return with_calls(" " + body, helpers, 0.7, rng).strip()


def calling_body(kind, helpers, rng, other):
    """The same, where it can be with a call."""
    for _ in range(5):
        body = helper_body(kind, helpers, rng, other)
        if calls(body):
            break
    return body


def some_helpers(group, below, first, rng, other):
    """A helper, or two that call each other, numbered from this one."""
    kind, chance = rng.choice(["new", "new", *KINDS]), rng.random()
    recurs = chance < 0.08
    names = [f"h{group}_{first + i}" for i in range(2 if chance < 0.03 else 1)]
    bodies = [calling_body(kind, below, rng, other) for _ in names]
    parameters = names_in(" ".join(bodies) + " x" * (kind in WITH_VALUE) + " n" * recurs)
    begins = [again(it, KINDS[kind][0], parameters) if recurs else "" for it in names[1:] + names[:1]]
    return [Helper(name, kind, begin + body, parameters) for name, begin, body in zip(names, begins, bodies)]


# ---- functions


def caller(name, helpers, rng, other):
    """A function that calls helpers, now and then one whose result it doesn't use."""
    while True:
        if rng.random() < 0.25:
            body = counted.body_text(counted_at_random.function(rng, "long", True))
        else:
            body = other(using_api.body(rng, most=rng.choice([1, 2, 2, 3]), spoils=0.4), rng)
        body = with_calls(body, helpers, 0.4, rng)
        if rng.random() < 0.08:
            body = f"{call(rng.choice(helpers), rng)}; {body}"
        if calls(body):
            return made(name, body, rng)


def group(number, rng, other):
    """The functions of a group, which stand in one line after the heads of those that are called before."""
    helpers = []
    for level in range(rng.choice([1, 2, 2, 3, 3, 3, 4])):
        below = list(helpers)
        for _ in range(rng.randint(1, 3)):
            helpers += some_helpers(number, below, len(helpers), rng, other)
    functions = helpers + [caller(f"f{number}_{i}", helpers, rng, other) for i in range(rng.randint(1, 3))]
    heads = [f"{it.head};" for i, it in enumerate(functions) if any(it.name in calls(other.body) for other in functions[:i])]
    for it in functions:
        it.line = " ".join(heads + [other.text for other in functions])
    return functions


def functions(count, rng, other):
    """Groups with so many functions, or some more, that call others, with other parts in the place of some."""
    found, number, left = [], 0, count
    while left > 0:
        made_now = group(number, rng, other)
        found += made_now
        number, left = number + 1, left - sum(bool(calls(it.body)) for it in made_now)
    return found
