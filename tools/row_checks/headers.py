"""Compares the rows with the prototypes in CPython's headers, as the C compiler's preprocessor gives them."""

from __future__ import annotations

import re
import subprocess
import sysconfig
from dataclasses import dataclass
from functools import cache

from pungi_module.model import Row
from pungi_module.rows import WideRow

from .reference_counts import OBJECTS, POINTERS, Difference

HEADERS = (
    "Python.h", "datetime.h", "frameobject.h", "marshal.h", "structmember.h", "pythread.h", "setjmp.h", "assert.h",
    "fcntl.h", "internal/pycore_bitutils.h", "internal/pycore_bytesobject.h", "internal/pycore_call.h",
    "internal/pycore_ceval.h", "internal/pycore_dict.h", "internal/pycore_fileutils.h", "internal/pycore_list.h",
    "internal/pycore_long.h", "internal/pycore_moduleobject.h", "internal/pycore_namespace.h",
    "internal/pycore_object.h", "internal/pycore_pyerrors.h", "internal/pycore_pystate.h",
    "internal/pycore_structseq.h", "internal/pycore_sysmodule.h", "internal/pycore_tuple.h",
    "internal/pycore_typeobject.h", "internal/pycore_unicodeobject.h", "internal/pycore_floatobject.h",
    "internal/pycore_gc.h", "internal/pycore_pymem.h",
)  # fmt: skip
PROTOTYPE = re.compile(
    r"(?P<result>[A-Za-z_][\w\s*]*?[\s*]+)\(?(?P<name>\w+)\)?"
    r"\s*\((?P<params>(?:[^()]|\((?:[^()]|\([^()]*\))*\))*)\)\s*[;{]"
)
SPECIFIERS = re.compile(r"\b(?:extern|static|inline|const|struct|register|volatile|__restrict)\b|__\w+__\b")
TYPE_WORDS = ("int", "char", "short", "long", "unsigned", "signed", "float", "double", "void")
FUNCTION_MACRO = re.compile(r"#define (\w+)\(([^)]*)\)")
ALIAS = re.compile(r"#define (\w+) \(?(\w+)\)?$", re.M)
#: The words that a type of the headers may have in a row, other than `any`.
INTEGERS = {
    "int": "int", "char": "int", "Py_ssize_t": "size", "long": "long", "unsigned long": "long", "long long": "long",
    "unsigned long long": "long", "size_t": "long", "Py_UCS4": "long", "Py_hash_t": "long", "unsigned int": "int",
    "ssize_t": "size", "long int": "long", "time_t": "long", "clock_t": "long", "__pid_t": "int",
    "PySendResult": "int", "PyLockStatus": "int",
}  # fmt: skip
OBJECT_TYPES = (
    "PyObject *", "PyTypeObject *", "PyVarObject *", "PyCodeObject *", "PyFrameObject *", "PyLongObject *",
    "PyDictObject *", "PySetObject *", "PyListObject *", "PyBytesObject *",
)  # fmt: skip
RESULTS = ("status", "truth", "size", "long", "converted")


@dataclass(frozen=True)
class Prototype:
    """A function of the headers."""

    result: str
    params: tuple[str, ...]


@dataclass
class Headers:
    """What the headers declare."""

    prototypes: dict[str, Prototype]
    #: The function-like macros, with the number of their parameters.
    macros: dict[str, int]


@cache
def read_headers() -> Headers:
    """What CPython's headers and those of the C library declare."""
    prototypes = read_prototypes(preprocessed("-P"))
    definitions = preprocessed("-dM")
    macros = {m[1]: len([w for w in m[2].split(",") if w.strip()]) for m in FUNCTION_MACRO.finditer(definitions)}
    aliases = {m[1]: m[2] for m in ALIAS.finditer(definitions)}
    for name in aliases:
        target = name
        for _ in range(4):
            target = aliases.get(target, target)
        if target in prototypes:
            prototypes.setdefault(name, prototypes[target])
        elif target in macros:
            macros.setdefault(name, macros[target])
    return Headers(prototypes, macros)


def preprocessed(option: str) -> str:
    """The headers as the preprocessor writes them with an option."""
    defined = "#define Py_BUILD_CORE 1\n#define PY_SSIZE_T_CLEAN\n"
    source = defined + "".join(f"#include <{header}>\n" for header in HEADERS)
    include = sysconfig.get_paths()["include"]
    words = ["gcc", "-x", "c", "-I", include, "-I", f"{include}/internal", "-E", option, "-"]
    return subprocess.run(words, input=source, capture_output=True, text=True, check=True).stdout


def read_prototypes(text: str) -> dict[str, Prototype]:
    """The functions that a preprocessed text declares."""
    text = re.sub(r"__attribute__\s*\(\((?:[^()]|\([^()]*\))*\)\)|__asm__\s*\([^)]*\)", "", text)
    prototypes: dict[str, Prototype] = {}
    for match in PROTOTYPE.finditer(text):
        params = [plain(param) for param in re.split(r",(?![^(]*\))", match["params"])]
        if params in (["void"], [""]):
            params = []
        prototypes.setdefault(match["name"], Prototype(plain(match["result"]), tuple(params)))
    return prototypes


def plain(words: str) -> str:
    """A type without specifiers, and without the name of a parameter."""
    text = re.sub(r"\s+", " ", SPECIFIERS.sub("", words)).strip()
    text = re.sub(r"\s*\[\w*\]", " *", text) if "(" not in text else text
    stars = text.count("*")
    names = text.replace("*", " ").split()
    if len(names) > 1 and names[-1] not in TYPE_WORDS and "(" not in text:
        names.pop()
    kind = " ".join(names)
    return kind + (" " + "*" * stars if stars else "")


def differences(rows: dict[str, Row], wide: dict[str, WideRow]) -> list[Difference]:
    """Where rows and headers differ."""
    headers = read_headers()
    prototypes, macros = headers.prototypes, headers.macros
    found: list[Difference] = []
    for name, row in sorted({**rows, **wide}.items()):
        count = len([word for word in row.params if word != "..."])
        if name in prototypes:
            found += differences_of(name, row, prototypes[name])
        elif name in macros and "..." not in row.params and macros[name] != count:
            found.append(Difference(name, "macro", str(count), str(macros[name])))
        elif name not in macros:
            found.append(Difference(name, "header", "a row", "in no header"))
    return found


def differences_of(name: str, row: Row | WideRow, prototype: Prototype) -> list[Difference]:
    """Where the row of a function and its prototype differ."""
    params = [param for param in prototype.params if param != "..."]
    words = [word for word in row.params if word != "..."]
    if len(params) != len(words) or ("..." in row.params) != ("..." in prototype.params):
        return [Difference(name, "header", " ".join(row.params), ", ".join(prototype.params))]
    found = [
        Difference(name, f"header {number}", word, kind)
        for number, (word, kind) in enumerate(zip(words, params, strict=True), 1)
        if not fits(word, kind)
    ]
    if not result_fits(row.result, prototype.result):
        found.append(Difference(name, "header result", row.result, prototype.result))
    return found


def fits(word: str, kind: str) -> bool:
    """Whether a word describes a parameter of a type."""
    if word in OBJECTS:
        return kind in OBJECT_TYPES
    if word in POINTERS:
        return "*" in kind
    if word in ("text", "text?"):
        return kind == "char *"
    if word == "any":
        return kind not in OBJECT_TYPES
    return INTEGERS.get(kind) == word


def result_fits(word: str, kind: str) -> bool:
    """Whether a word describes a result of a type."""
    if word in ("new", "borrowed", "borrowed_sure", "null", "argument", "argument?"):
        return kind in OBJECT_TYPES
    if word in ("void", "never"):
        return kind == "void"
    if word == "text":
        return kind == "char *"
    if word == "any":
        return kind not in OBJECT_TYPES
    if word == "array":
        return kind == "PyObject **"
    return INTEGERS.get(kind) == word or word in RESULTS and kind in INTEGERS
