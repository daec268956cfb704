"""Random functions that use the Python/C API, at most times by its rules.

A third have a loop, and two in five compute numbers that are no sums of an unknown one and a constant."""

# What gives a new reference, what gives a borrowed one, what keeps a value V and what takes its reference over, and what does neither.
NEW = [
    "PyLong_FromLong(1000003)", 'PyUnicode_FromString("a text")', 'PyBytes_FromString("a text")', "PyList_New(0)", "PyDict_New()",
    "PyObject_Str(x)", "PyObject_Repr(y)", "PyDict_Keys(d)", "PyDict_Values(d)", "PyDict_Items(d)", "PySequence_GetItem(l, 0)",
    "PyObject_GetItem(d, x)", 'PyObject_GetAttrString(m, "there")', 'PySequence_Fast(d, "no sequence")', "PyNumber_Add(x, y)",
    "PyNumber_Subtract(x, y)", "PyNumber_Multiply(y, y)", "Py_NewRef(x)", "Py_XNewRef(y)", "PyLong_FromLong(1000003 + n * 2)",
]
BORROWED = [
    "PyList_GetItem(l, 1)", 'PyDict_GetItemString(d, "there")', "PyDict_GetItem(d, x)", "PyDict_GetItemWithError(d, y)",
    "PyModule_GetDict(m)", "PyList_GET_ITEM(l, 1)", "b->first", "kept", "PyList_GetItem(l, n % 2)",
]
KEEPS = [
    "PyList_Append(l, V)", "PyList_Insert(l, 0, V)", "PySequence_SetItem(l, 0, V)", "PyDict_SetItem(d, x, V)",
    "PyObject_SetItem(d, y, V)", 'PyDict_SetItemString(d, "name", V)', 'PyObject_SetAttrString(m, "name", V)',
    'PyModule_AddObjectRef(m, "name", V)',
]
TAKES = ["PyList_SetItem(l, 0, V)", "PyList_SetItem(l, 2, V)", "PyTuple_SetItem(l, 0, V)"]
# Numbers, how they are compared, and what becomes of them. Constants are such that few overflow.
NUMBERS = ["n", "k", "b->size", "mode", "PyObject_Size(l)", "PySequence_Size(l)", "PyLong_AsLong(x)"]
COMPARISONS = ["<", "<=", ">", ">=", "==", "!="]
CHANGES = ["n = n + 1;", "k -= 2;", "k++;", "b->size = b->size + 1;", "mode = 3;", "b->size = n;", "k = n;"]
# The same for numbers that are no unknown number and a constant. (No long goes into an int: where it doesn't fit a run of the
# meaning stops, and one of a compiler's program goes on.)
COMPUTED = [
    "n = n * 2;", "n = -n;", "n = 7 - n;", "n = n % 3;", "n *= n;", "k = n * k;", "k = k / 2;", "k = 100 / k;", "k -= n;", "k = k % n;",
    "b->size = n * 2;", "b->size += k;", "mode = mode * n;", "mode = n - mode;",
]
OPERATORS = [" * k", " * n", " / 2", " / n", " % 3", " % k", " + mode", " - n", " * 2"]
OTHERS = ["PyDict_DelItem(d, x)", 'PyModule_AddIntConstant(m, "number", 7)', "PyObject_IsTrue(x)", "PyObject_RichCompareBool(x, y, 2)"]
# What stands before a loop with the counter I, what stands before its body, at the end of the body, and after it. C is a
# condition.
LOOPS = [
    ("int I;", "for (I = 0; I < 0; I++)", "", ""), ("int I;", "for (I = 0; I < 1; I++)", "", ""),
    ("int I;", "for (I = 0; I < 2; I++)", "", ""), ("int I;", "for (I = 0; I < 3; I++)", "", ""),
    ("int I;", "for (I = 0; I < n; I++)", "break;", ""), ("int I;", "for (I = 0; I < n; I++)", "if (I == 1) break;", ""),
    ("int I;", "for (I = 0; I != n; I++)", "if (I == 2) break;", ""),
    ("int I;", "for (I = 0; C; I++)", "if (I == 1) break;", ""), ("", "while (C)", "break;", ""),
    ("int I = 0;", "while (I < 1)", "I++;", ""), ("int I = 0;", "while (C)", "if (I++ == 1) break;", ""),
    ("int I = 0;", "while (C)", "I++; if (I < 2) continue; break;", ""), ("", "for (;;)", "break;", ""),
    ("int I = 0;", "for (;;)", "if (C) break; if (I++ == 1) break;", ""), ("", "do", "", " while (0);"),
    ("int I = 0;", "do", "", " while (I++ < 1);"), ("int I = 0;", "do", "if (C) break;", " while (I++ < 2);"),
    ("int I = 0;", "again_I:", "", " if (I++ < 1) goto again_I;"),
    ("int I = 0;", "again_I:", "", " if (C && I++ < 2) goto again_I;"),
    # (of any number of turns)
    ("int I;", "for (I = 0; I < n; I++)", "", ""), ("int I;", "for (I = 0; I != n; I++)", "", ""),
    ("long I = k;", "while (I != 0)", "I--;", ""), ("long I;", "for (I = n; I > 0; I--)", "if (C) break;", ""),
    ("long I = 0;", "do", "I++; if (C) continue;", " while (I < k);"),
]


class Loop:
    """A loop: what stands before its body, the statements of the body, and what stands after it."""

    def __init__(self, before, body, after):
        self.before, self.body, self.after = before, body, after


def released(owned, rng):
    """Statements that give back what is owned."""
    return [f"{rng.choice(['Py_DECREF', 'Py_XDECREF'])}({v});" for v in rng.sample(owned, len(owned))]


def leave(owned, rng):
    return released(owned, rng) + [rng.choice(["return NULL;"] * 4 + ["return PyErr_NoMemory();"])]


def condition(numbers, rng):
    """A comparison of numbers: of locals, parameters, fields and globals, and constants."""
    left = rng.choice([*numbers, "n", "k", "b->size", "mode"])
    right = rng.choice([*numbers, "n", "k", "0", "1", "5", "-3", "100"])
    if rng.random() < 0.3:
        left += rng.choice([" + 1", " - 1", " + 7"])
    if rng.random() < 0.2:
        left = rng.choice(["", "", "-"]) + left + rng.choice(OPERATORS)
    if rng.random() < 0.05:
        right += rng.choice(OPERATORS)
    text = f"{left} {rng.choice(COMPARISONS)} {right}"
    return rng.choice([text, text, f"!({text})", f"{left}"])


def change(rng):
    """A statement that gives a number another value."""
    return rng.choice(CHANGES if rng.random() < 0.6 else COMPUTED)


def count(number, made, owned, numbers, rng):
    """Adds statements that compute with numbers, or go a way by them."""
    kind = rng.random()
    if kind < 0.3:
        v = f"n{number}"
        made.append(f"long {v} = {rng.choice(NUMBERS)};")
        numbers.append(v)
        if rng.random() < 0.5:
            made.append((f"{v} < 0", leave(owned, rng)))
    elif kind < 0.5:
        made.append(change(rng))
    else:
        way = rng.choice([leave(owned, rng), ["Py_INCREF(x);", "Py_DECREF(x);"], [change(rng)]])
        made.append((condition(numbers, rng), way))


def begin(v, made, owned, borrowed, rng, kept=()):
    """Adds statements that give a local its value. It doesn't take over what is to be kept."""
    kind = rng.random()
    loose = [it for it in owned if it not in kept]
    if kind < 0.1 and loose:
        w = rng.choice(loose)
        of = rng.choice(["PyList", "PyTuple"])
        made += [f"PyObject *{v} = {of}_New(1);", (f"{v} == NULL", leave(owned, rng)), f"{of}_SET_ITEM({v}, 0, {w});"]
        owned.remove(w)
        owned.append(v)
    elif kind < 0.7:
        made += [f"PyObject *{v} = {rng.choice(NEW)};", (f"{v} == NULL", leave(owned, rng))]
        owned.append(v)
    else:
        made += [f"PyObject *{v} = {rng.choice(BORROWED)};", (f"{v} == NULL", leave(owned, rng))]
        borrowed.append(v)
        if rng.random() < 0.5:
            made.append(f"{rng.choice(['Py_INCREF', 'Py_XINCREF'])}({v});")
            owned.append(v)


def store(number, made, owned, borrowed, rng):
    """Adds statements that give the field or the global another content."""
    w, old, place = rng.choice([*owned, *borrowed, "x", "NULL"]), f"old{number}", rng.choice(["b->first", "kept"])
    made.append(f"PyObject *{old} = {place};")
    if w in owned:
        owned.remove(w)
        borrowed.append(w)
    elif w != "NULL":
        made.append(f"Py_INCREF({w});")
    made += [f"{place} = {w};", f"Py_XDECREF({old});"]


def use(made, owned, borrowed, rng):
    """Adds a statement that uses a value."""
    w, kind = rng.choice([*owned, *borrowed, "x", "y"]), rng.random()
    if kind < 0.2:
        store(len(made), made, owned, borrowed, rng)
    elif kind < 0.4:
        made.append((rng.choice(KEEPS).replace("V", w) + " < 0", leave(owned, rng)))
    elif kind < 0.5:
        made.append((rng.choice(OTHERS) + " < 0", leave(owned, rng)))
    elif kind < 0.8 and w in owned:
        owned.remove(w)
        borrowed.append(w)
        made.append((rng.choice(TAKES).replace("V", w) + " < 0", leave(owned, rng)))
    elif kind < 0.9 and w in owned:
        made.append((f'PyModule_AddObject(m, "name", {w}) < 0', leave(owned, rng)))
        owned.remove(w)
        borrowed.append(w)
    else:
        made += [("x == y", ["Py_INCREF(x);", "Py_DECREF(y);"]), "PyErr_Clear();"]


def body_of(number, owned, borrowed, rng):
    """Statements that may be done several times: what they make is given back at their end."""
    made, own, other = [], list(owned), list(borrowed)
    for part in range(rng.choice([0, 1, 1, 2])):
        begin(f"u{number}{part}", made, own, other, rng, owned)
    kind = rng.random()
    if kind < 0.3:
        made.append((rng.choice(OTHERS) + " < 0", leave(own, rng)))
    elif kind < 0.6:
        w = rng.choice([*own, *other, "x", "y"])
        made.append((rng.choice(KEEPS).replace("V", w) + " < 0", leave(own, rng)))
    elif kind < 0.8:
        made += ["Py_INCREF(x);", "Py_DECREF(x);"]
    return made + released([it for it in own if it not in owned], rng)


def repeat(number, made, owned, borrowed, numbers, rng):
    """Adds a loop."""
    first, before, last, after = (
        it.replace("I", f"i{number}").replace("C", condition(numbers, rng)) for it in rng.choice(LOOPS)
    )
    made += [first] if first else []
    made.append(Loop(before, body_of(number, owned, borrowed, rng) + ([last] if last else []), after))


def statements(rng, most):
    """Statements that keep the rules, with so many values at most: each is a text, a loop, or a condition with the statements after it."""
    made, owned, borrowed, numbers = [], [], [], []
    has_numbers = rng.random() < 0.6
    has_loop = rng.random() < 0.35
    for number in range(rng.randint(1, most)):
        if has_numbers:
            count(number, made, owned, numbers, rng)
        begin(f"v{number}", made, owned, borrowed, rng)
        for _ in range(rng.randint(0, 2)):
            use(made, owned, borrowed, rng)
        if has_loop and (number == 0 or rng.random() < 0.3):
            repeat(number, made, owned, borrowed, numbers, rng)
    if owned and rng.random() < 0.7:
        back = owned.pop(rng.randrange(len(owned)))
        return made + released(owned, rng) + [f"return {back};"]
    return made + released(owned, rng) + [rng.choice(["Py_RETURN_NONE;", "return Py_NewRef(x);", "return NULL;"])]


def places_in(made):
    """The lists with the places in them that have a statement which counts or checks."""
    places = [(made, i) for i, it in enumerate(made) if isinstance(it, tuple) or str(it).startswith("Py_")]
    places += [(it[1], i) for it in made if isinstance(it, tuple) for i, s in enumerate(it[1]) if s.startswith("Py_")]
    return places + [place for it in made if isinstance(it, Loop) for place in places_in(it.body)]


def spoiled(made, rng):
    """The statements, with one that counts or checks left out or written twice."""
    places = [(part, i) for part, i in places_in(made) if "RETURN" not in str(part[i])]
    if not places:
        return made
    part, i = rng.choice(places)
    if isinstance(part[i], str) and rng.random() < 0.5:
        part.insert(i, part[i])
    elif isinstance(part[i], str) or rng.random() < 0.3:
        del part[i]
    else:
        part[i] = (part[i][0], ["return NULL;"])
    return made


def text_of(made):
    return " ".join(text_of_one(it) for it in made)


def text_of_one(it):
    if isinstance(it, Loop):
        return f"{it.before} {{ {text_of(it.body)} }}{it.after}"
    return it if isinstance(it, str) else f"if ({it[0]}) {{ {' '.join(it[1])} }}"


def body(rng, most=4, spoils=0.6):
    """The text of a function's body, with so many values at most; this part of all bodies is spoiled."""
    made = statements(rng, most)
    if rng.random() < spoils:
        made = spoiled(made, rng)
    return text_of(made)
