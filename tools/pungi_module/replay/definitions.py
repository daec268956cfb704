"""The functions that a prepared text defines, each parsed on its own."""

from __future__ import annotations

import re
from collections.abc import Collection
from dataclasses import dataclass
from functools import lru_cache

from pycparser import c_ast, c_parser

from ..lexical import QUOTED

#: The types that Pungi knows by itself, and its macros, as a parser of C needs them.
TYPES = """PyObject PyVarObject PyTypeObject PyMethodDef PyModuleDef PyModuleDef_Slot PyMemberDef PyGetSetDef
PyNumberMethods PySequenceMethods PyMappingMethods PyType_Slot PyType_Spec PyCFunction Py_ssize_t Py_hash_t Py_buffer
PyThreadState PyGILState_STATE size_t ssize_t int8_t int16_t int32_t int64_t uint8_t uint16_t uint32_t uint64_t bool FILE""".split()
#: Pungi's macros as a parser of C reads them. `NULL` keeps its width, so that what follows it stays at its place.
MACROS = {
    "Py_RETURN_NONE": "return Py_NewRef(Py_None)",
    "Py_RETURN_TRUE": "return Py_NewRef(Py_True)",
    "Py_RETURN_FALSE": "return Py_NewRef(Py_False)",
    "Py_BEGIN_ALLOW_THREADS": "{",
    "Py_END_ALLOW_THREADS": "}",
    "PyMODINIT_FUNC": "PyObject *",
    "NULL": "0   ",
}
#: Names of types that a text declares: plain ones, and those of structs.
TYPEDEF, TAGGED = re.compile(r"\btypedef\b[^;{]*?\b(\w+)\s*;"), re.compile(r"}\s*(?!break|continue|return)(\w+)\s*;")
TOKEN = re.compile(rf"{QUOTED}|[{{}};=]|\n|\w+(?=\s*\()")


@dataclass(frozen=True)
class Definition:
    """Where a function stands in a text: from the first byte of its head to after its last brace."""

    name: str
    start: int
    body: int
    end: int


@lru_cache(maxsize=16)
def definitions_of(text: str) -> dict[str, Definition]:
    """The functions of a text, by one look over its braces."""
    found: dict[str, Definition] = {}
    depth, start, body, name, is_value = 0, 0, 0, "", False
    for token in TOKEN.finditer(text):
        word = token.group()
        if word == "{":
            depth += 1
            body = token.start() if depth == 1 else body
        elif word == "}":
            depth -= 1
            if depth == 0 and name and not is_value:
                found[name] = Definition(name, start, body, token.end())
                start, name = token.end(), ""
        elif depth == 0 and word == ";":
            start, name, is_value = token.end(), "", False
        elif depth == 0 and word == "=":
            is_value = True
        elif depth == 0 and (word[0].isalpha() or word[0] == "_"):
            name = name or word
    return found


@lru_cache(maxsize=16)
def words_in(text: str) -> dict[str, dict[str, None]]:
    """The words in the bodies of the functions of a text, each once, in their order."""
    return {name: dict.fromkeys(re.findall(r"\w+", text[one.body : one.end]))
            for name, one in definitions_of(text).items()}


def calls_in(text: str) -> dict[str, list[str]]:
    """The functions of a text that each one names: a call by a row names none."""
    words = words_in(text)
    return {name: [word for word in found if word in words] for name, found in words.items()}


def place_at(text: str, offset: int) -> tuple[int, int]:
    """Line and column of a byte, counted from 1."""
    return text.count("\n", 0, offset) + 1, offset - (text.rfind("\n", 0, offset) + 1) + 1


def with_only(text: str, names: Collection[str]) -> str:
    """The text with the bodies of these functions alone; the others are declared, and all stands where it stood."""
    pieces, at = [], 0
    for definition in definitions_of(text).values():
        if definition.name not in names:
            body = text[definition.body : definition.end]
            pieces += [text[at : definition.body], ";", re.sub(r"[^\n]", " ", body)[1:]]
            at = definition.end
    return "".join([*pieces, text[at:]])


def parsed(text: str, definition: Definition) -> c_ast.FuncDef:
    """The tree of one function; its places are those in the text."""
    line, column = place_at(text, definition.start)
    known = "".join(f"typedef int {name}; " for name in sorted({*TYPES, *TYPEDEF.findall(text), *TAGGED.findall(text)}))
    written = text[definition.start : definition.end]
    own = re.sub(r"\b\w+\b", lambda word: MACROS.get(word.group(), word.group()), written)
    tree = c_parser.CParser().parse(f"{known}\n# {line} \"text\"\n{' ' * (column - 1)}{own}", "text")
    found = tree.ext[-1]
    if not isinstance(found, c_ast.FuncDef):
        raise ValueError(f"{definition.name} is not a function")
    return found
