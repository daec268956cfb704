"""Runs a C function and its prepared text in this Python, and compares what they do to reference counts.

Both are compiled with gcc into shared libraries and called with the same arguments. A call of the prepared text for which
Python has no function (`pungi_long_o`, a default row) is one that chooses what it returns, among all that its
row allows; each way of choosing is one run. The runs of the original have to be among those of the prepared text.
"""

from __future__ import annotations

import ctypes
import hashlib
import itertools
import os
import re
import shutil
import subprocess
import sys
import sysconfig
import tempfile
import unittest
from collections.abc import Callable, Iterable, Iterator, Sequence
from dataclasses import dataclass
from functools import lru_cache
from pathlib import Path

sys.path.insert(0, str(Path(__file__).resolve().parent.parent))

from pungi_module.model import Row  # noqa: E402

#: At most so many choices are made in a run, and so many runs of a text are looked at.
MOST_CHOICES, MOST_RUNS = 24, 4096
MOST_PARAMETERS, MOST_OBJECTS, MOST_FIELDS = 6, 64, 8
INCLUDES = sysconfig.get_paths()["include"]


def missing() -> str | None:
    """What is not there that running needs."""
    if sys.version_info[:2] != (3, 11):
        return "this Python is not 3.11"
    if shutil.which("gcc") is None:
        return "there is no gcc"
    return None if Path(INCLUDES, "Python.h").exists() else "there are no headers of Python"


@dataclass(frozen=True)
class Outcome:
    """What a run did: the number that it returned, or which object; the changes of counts; whether memory is lost.

    Objects go by their number among the tracked ones. The changes are those after the result is given back and
    the error is cleared.
    """

    result: str
    changes: tuple[int, ...]
    leaks: bool


@dataclass(frozen=True)
class Array:
    """An argument that is an array of pointers to objects, which these functions make; None stands for NULL."""

    makers: tuple[Callable[[], object] | None, ...]


@dataclass(frozen=True)
class Instance:
    """An argument that is an object with these fields, which it owns; of a type that only frees its memory."""

    makers: tuple[Callable[[], object] | None, ...]


@dataclass(frozen=True)
class Text:
    """An argument that is a `char *`, or NULL."""

    content: bytes | None


#: Makes an object anew for each run; an int is passed as an integer; None stands for NULL.
Argument = Callable[[], object] | Array | Instance | Text | int | None

HEAD = r"""
#define PY_SSIZE_T_CLEAN
#include <Python.h>
#include <structmember.h>
#include <setjmp.h>
#include <signal.h>
static sigjmp_buf pungi_stop;
/* A read through NULL ends the run. */
static void pungi_signalled(int signal) { siglongjmp(pungi_stop, 1); }
int pungi_plan[@CHOICES@], pungi_ways[@CHOICES@], pungi_used;
static int pungi_choose(int ways) {
    if (pungi_used == @CHOICES@) siglongjmp(pungi_stop, 2);
    pungi_ways[pungi_used] = ways;
    return pungi_plan[pungi_used++];
}
/* An object with fields, which are NULL at first. */
typedef struct { PyObject_HEAD PyObject *fields[@FIELDS@]; } pungi_Object;
static void pungi_end(PyObject *o) {
    for (int i = 0; i < @FIELDS@; i++) Py_CLEAR(((pungi_Object *)o)->fields[i]);
    PyObject_Free(o);
}
static PyTypeObject pungi_type = { PyVarObject_HEAD_INIT(NULL, 0) .tp_name = "pungi", .tp_dealloc = pungi_end,
                                   .tp_basicsize = sizeof(pungi_Object) };
static PyObject *pungi_object(void) {
    if (PyType_Ready(&pungi_type) < 0) return NULL;
    PyObject *made = PyObject_Malloc(sizeof(pungi_Object));
    return made ? PyObject_Init(memset(made, 0, sizeof(pungi_Object)), &pungi_type) : NULL;
}
/* An object whose fields are NULL, and one whose fields are not; both are as before after each run. */
static pungi_Object *pungi_others[2];
static PyObject *pungi_held;
static void pungi_others_as_before(void) {
    if (!pungi_held) {
        pungi_held = PyList_New(0);
        for (int i = 0; i < 2; i++) pungi_others[i] = (pungi_Object *)pungi_object();
    }
    for (int i = 0; i < @FIELDS@; i++) pungi_others[0]->fields[i] = NULL, pungi_others[1]->fields[i] = pungi_held;
    /* No run gives up the last reference to them. */
    for (int i = 0; i < 2; i++) Py_SET_REFCNT(pungi_others[i], 1 << 20);
    Py_SET_REFCNT(pungi_held, 1 << 20);
}
static PyObject *pungi_other(void) {
    return (PyObject *)pungi_others[pungi_choose(2)];
}
/* What takes a reference over keeps it or gives it up. */
static void pungi_taken(const void *o) {
    if (o && pungi_choose(2)) Py_DECREF((PyObject *)o);
}
"""

TAIL = r"""
static void *pungi_functions[] = { @FUNCTIONS@ };
/* 0 where the function returned, 1 where it stopped, 2 where it made too many choices. */
int pungi_run(int which, int gives_object, void **a, PyObject **tracked, Py_ssize_t *changes, int count, void **result,
              Py_ssize_t *lost) {
    pungi_used = 0;
    pungi_others_as_before();
    Py_ssize_t before = _Py_GetAllocatedBlocks();
    for (int i = 0; i < count; i++) changes[i] = Py_REFCNT(tracked[i]);
    struct sigaction old, own = { .sa_handler = pungi_signalled };
    sigaction(SIGSEGV, &own, &old);
    int ended = sigsetjmp(pungi_stop, 1);
    if (!ended) {
        *result = ((void *(*)())pungi_functions[which])(a[0], a[1], a[2], a[3], a[4], a[5]);
        if (gives_object) Py_XDECREF((PyObject *)*result);
    }
    sigaction(SIGSEGV, &old, NULL);
    PyErr_Clear();
    for (int i = 0; i < count; i++) changes[i] = Py_REFCNT(tracked[i]) - changes[i];
    *lost = _Py_GetAllocatedBlocks() - before;
    return ended;
}
"""

#: How a call returns what its row says, by choosing.
RETURNS = {
    "new": ("PyObject *", "return pungi_choose(2) ? NULL : PyList_New(0);"),
    "new object": ("PyObject *", "return pungi_choose(2) ? NULL : pungi_object();"),
    "borrowed": ("PyObject *", "return pungi_choose(2) ? NULL : pungi_other();"),
    "borrowed_sure": ("PyObject *", "return pungi_other();"),
    "status": ("int ", "return -pungi_choose(2);"),
    "truth": ("int ", "return pungi_choose(3) - 1;"),
    "size": ("Py_ssize_t ", "return pungi_choose(4) - 1;"),
    "int": ("int ", "return pungi_choose(5) - 2;"),
    "long": ("long ", "return pungi_choose(5) - 2;"),
    "text": ("char *", 'return pungi_choose(2) ? NULL : "text";'),
    "void": ("void ", ""),
    "null": ("void *", "return NULL;"),
}
#: The rows whose result is an object with fields.
NEW_OBJECTS = ("pungi_new_object", "pungi_tp_alloc")
KINDS = {
    "object": "void *", "object?": "void *", "text": "const void *", "text?": "const void *",
    "int": "int ", "long": "long ", "size": "Py_ssize_t ",
}


@lru_cache
def python_macros() -> frozenset[str]:
    """The macros of Python's headers."""
    listed = subprocess.run(
        ["gcc", "-E", "-dM", "-I", INCLUDES, "-x", "c", "-"],
        input="#include <Python.h>\n", capture_output=True, text=True, check=True,
    )
    return frozenset(re.findall(r"^#define (\w+)", listed.stdout, re.MULTILINE))


def is_of_python(name: str) -> bool:
    """Whether this Python has a function or macro of that name."""
    return name in python_macros() or hasattr(ctypes.pythonapi, name)


def definition_of(name: str, row: Row) -> str:
    """A function that chooses what it returns, among what the row allows."""
    given, body = RETURNS["new object" if name in NEW_OBJECTS else row.result]
    body = "".join(f"pungi_taken(a{i - 1}); " for i in row.takes) + body
    parameters = ", ".join(f"{KINDS[word]}a{i}" for i, word in enumerate(row.params)) or "void"
    return f"#define {name} pungi_row_{name}\nstatic {given}pungi_row_{name}({parameters}) {{ {body} }}\n"


def renamed_types(text: str) -> str:
    """Definitions under which the types that the text declares are other ones than Python's of the same name."""
    patterns = (r"^typedef\b[^;{]*?\b(\w+);", r"^}\s*(\w+);", r"\bstruct (\w+)\s*{")
    declared = {name for pattern in patterns for name in re.findall(pattern, text, re.MULTILINE)}
    return "".join(f"#define {name} pungi_own_{name}\n" for name in sorted(declared))


def prepared_source(text: str, rows: dict[str, Row]) -> str:
    """The prepared text as C: its rows defined, its types its own, and its stops ends of the run."""
    defined = "".join(definition_of(name, row) for name, row in sorted(rows.items()) if not is_of_python(name))
    stopped = re.sub(r"\b1 / 0\b", "(siglongjmp(pungi_stop, 1), 0)", text)
    return defined + renamed_types(text) + stopped


class Library:
    """A text of C, compiled and loaded."""

    def __init__(self, text: str, functions: Sequence[str], flags: Sequence[str] = ()) -> None:
        head = HEAD.replace("@CHOICES@", str(MOST_CHOICES)).replace("@FIELDS@", str(MOST_FIELDS))
        tail = TAIL.replace("@FUNCTIONS@", ", ".join(f"(void *){name}" for name in functions))
        self.functions = list(functions)
        self.loaded = ctypes.PyDLL(compiled(f"{head}\n{text}\n{tail}", flags))
        self.plan = (ctypes.c_int * MOST_CHOICES).in_dll(self.loaded, "pungi_plan")
        self.ways = (ctypes.c_int * MOST_CHOICES).in_dll(self.loaded, "pungi_ways")

    def used(self) -> int:
        """How many choices the last run made."""
        return ctypes.c_int.in_dll(self.loaded, "pungi_used").value

    def run(self, function: str, arguments: Sequence[Argument], result: str, with_head: bool) -> Outcome | None:
        """One run by the plan; None where it stops."""
        given = Given(arguments, with_head)
        tracked = (ctypes.c_void_p * MOST_OBJECTS)(*map(id, given.tracked))
        changes = (ctypes.c_ssize_t * MOST_OBJECTS)()
        returned, lost = ctypes.c_void_p(), ctypes.c_ssize_t()
        ended = self.loaded.pungi_run(
            self.functions.index(function), int(result == "object"), given.words, tracked, changes,
            len(given.tracked), ctypes.byref(returned), ctypes.byref(lost),
        )
        if ended:
            return None
        return Outcome(given.named(returned.value, result), tuple(changes[: len(given.tracked)]), lost.value > 0)


class Given:
    """The arguments of one run, and the objects whose counts are looked at: they and what they have as elements."""

    def __init__(self, arguments: Sequence[Argument], with_head: bool) -> None:
        self.tracked: list[object] = [None, True, False]
        self.kept: list[object] = []
        self.words = (ctypes.c_void_p * MOST_PARAMETERS)()
        for place, argument in enumerate(arguments):
            self.words[place] = self.word(argument, with_head)

    def word(self, argument: Argument, with_head: bool) -> int | None:
        """What is passed for the argument."""
        if argument is None or isinstance(argument, int):
            return argument
        if isinstance(argument, Text):
            self.kept.append(ctypes.c_char_p(argument.content))
            return ctypes.cast(self.kept[-1], ctypes.c_void_p).value
        if isinstance(argument, Array):
            # The prepared text reads element k of an array as the field `ik` of an object.
            head = [1, id(object)] if with_head else []
            elements = self.elements(argument.makers)
            self.kept.append((ctypes.c_void_p * (len(head) + len(elements)))(*head, *elements))
            return ctypes.addressof(self.kept[-1])
        if isinstance(argument, Instance):
            return self.instance(self.elements(argument.makers))
        made = argument()
        address = self.track(made)
        if isinstance(made, (list, tuple)):
            for element in made:
                self.track(element)
        return address

    def elements(self, makers: Iterable[Callable[[], object] | None]) -> list[int | None]:
        """The addresses of what these make."""
        return [self.track(maker()) if maker else None for maker in makers]

    def instance(self, fields: list[int | None]) -> int:
        """An object with a count of one, in memory that the deallocator of `object` may free."""
        words = (ctypes.c_void_p * (2 + len(fields)))(1, id(object), *fields)
        address = allocate(ctypes.sizeof(words))
        ctypes.memmove(address, words, ctypes.sizeof(words))
        for field in filter(None, fields):
            ctypes.pythonapi.Py_IncRef(ctypes.c_void_p(field))
        return address

    def track(self, made: object) -> int:
        """Notes the object, once."""
        if not any(made is other for other in self.tracked):
            self.tracked.append(made)
        return id(made)

    def named(self, address: int | None, result: str) -> str:
        """The result in words that do not depend on addresses."""
        if result == "void":
            return "nothing"
        if result != "object":
            return str(ctypes.c_int(address or 0).value if result == "int" else ctypes.c_long(address or 0).value)
        known = [f"object {i}" for i, it in enumerate(self.tracked) if id(it) == address]
        return known[0] if known else "an object" if address else "NULL"


def allocate(size: int) -> int:
    """Memory for an object."""
    function = ctypes.pythonapi.PyObject_Malloc
    function.argtypes, function.restype = (ctypes.c_size_t,), ctypes.c_void_p
    return function(size)


def compiled(text: str, flags: Sequence[str]) -> str:
    """The path of a shared library of the text, kept by its checksum."""
    folder = Path(tempfile.gettempdir(), f"pungi_running_{os.getuid()}")
    folder.mkdir(mode=0o700, exist_ok=True)
    mark = hashlib.sha256("\0".join([text, INCLUDES, *flags]).encode()).hexdigest()[:24]
    library, source = folder / f"{mark}.so", folder / f"{mark}.c"
    if not library.exists():
        source.write_text(text, encoding="latin-1")
        build = folder / f"{mark}.{os.getpid()}.so"
        made = subprocess.run(
            ["gcc", "-w", "-O0", "-shared", "-fPIC", "-I", INCLUDES, *flags, "-o", str(build), str(source)],
            capture_output=True, text=True,
        )
        if made.returncode:
            raise RuntimeError(f"gcc does not compile {source}:\n{made.stderr[:2000]}")
        build.rename(library)
    return str(library)


def plans(library: Library) -> Iterator[None]:
    """Sets one plan after the other, each next one from the choices that the run by the last one made."""
    library.plan[:] = [0] * MOST_CHOICES
    for _ in range(MOST_RUNS):
        yield
        place = library.used() - 1
        while place >= 0 and library.plan[place] + 1 >= library.ways[place]:
            place -= 1
        if place < 0:
            return
        library.plan[place] += 1
        library.plan[place + 1 :] = [0] * (MOST_CHOICES - place - 1)


def run_original(
    source: str, function: str, arguments: Sequence[Argument], result: str = "object", flags: Sequence[str] = ()
) -> Outcome:
    """What the function of the source does. It runs a few times, so that Python's free lists and tables are filled."""
    library = Library(source, [function], flags)
    outcomes = [library.run(function, arguments, result, with_head=False) for _ in range(4)]
    if outcomes[-1] is None:
        raise RuntimeError(f"{function} stops")
    return outcomes[-1]


def run_prepared(
    text: str, rows: dict[str, Row], function: str, arguments: Sequence[Argument], result: str = "object"
) -> set[Outcome]:
    """What the runs of the prepared function do."""
    library = Library(prepared_source(text, rows), [function])
    outcomes = set()
    for _ in plans(library):
        chosen = list(library.plan)
        for repeated in itertools.count():
            library.plan[:] = chosen
            outcome = library.run(function, arguments, result, with_head=True)
            if outcome is None or repeated == 2:
                break
        outcomes |= {outcome} if outcome else set()
    return outcomes


def assert_has_run(
    case: unittest.TestCase,
    source: str,
    text: str,
    rows: dict[str, Row],
    function: str,
    arguments: Iterable[Argument],
    result: str = "object",
    only: bool = False,
) -> None:
    """The original's run is one of the prepared text's runs; with `only`, they all are like it."""
    arguments = list(arguments)
    wanted = run_original(source, function, arguments, result)
    outcomes = run_prepared(text, rows, function, arguments, result)
    case.assertIn(wanted, outcomes, f"{function}: no run of the prepared text does as the original")
    if only:
        case.assertEqual({wanted}, outcomes, f"{function}: the prepared text has other runs")
