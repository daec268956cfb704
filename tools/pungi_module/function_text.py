"""Finds the functions of a prepared text: which of their parameters are objects, and the words of their bodies."""

from __future__ import annotations

import re
from dataclasses import dataclass
from functools import lru_cache

from .lexical import COMMENT, QUOTED

TOKEN = re.compile(rf"(?P<skip>\s+|{COMMENT}|\#[^\n]*)|{QUOTED}|[A-Za-z_]\w*|\d[\w.]*|.", re.DOTALL)
CLOSING = {"(": ")", "{": "}", "[": "]"}


@dataclass(frozen=True)
class FunctionText:
    """A function of a text."""

    name: str
    returns_object: bool
    #: The numbers, from 1, of the parameters that are objects.
    objects: tuple[int, ...]
    #: The words of the body.
    words: frozenset[str]


@lru_cache(maxsize=256)
def find_functions(text: str) -> dict[str, FunctionText]:
    """The functions that a text defines, by their names."""
    tokens = tokens_of(text)
    found: dict[str, FunctionText] = {}
    start = at = 0
    while at < len(tokens):
        token = tokens[at]
        if token == "{":
            end = closing(tokens, at)
            function = function_at(tokens[start:at], tokens[at : end + 1])
            if function is not None:
                found[function.name] = function
                start = end + 1
            at = end + 1
        elif token in CLOSING:
            at = closing(tokens, at) + 1
        else:
            at += 1
            if token == ";":
                start = at
    return found


def tokens_of(text: str) -> list[str]:
    """The tokens of a text without comments and directives."""
    return [m[0] for m in TOKEN.finditer(text) if m.lastgroup != "skip"]


def closing(tokens: list[str], at: int) -> int:
    """The number of the token that closes the bracket at a token, or of the last one."""
    depth = 0
    for number in range(at, len(tokens)):
        if tokens[number] in CLOSING:
            depth += 1
        elif tokens[number] in CLOSING.values():
            depth -= 1
            if depth == 0:
                return number
    return len(tokens) - 1


def function_at(head: list[str], body: list[str]) -> FunctionText | None:
    """The function with this head and this body, or nothing where they are of something else."""
    opening = next((i for i, token in enumerate(head) if token == "("), 0)
    if opening < 2 or head[-1] != ")" or "=" in head or "typedef" in head:
        return None
    parameters = enumerate(parameters_of(head[opening + 1 : -1]), 1)
    return FunctionText(
        name=head[opening - 1],
        returns_object=is_object(head[: opening - 1]),
        objects=tuple(number for number, words in parameters if is_object(words)),
        words=frozenset(body),
    )


def is_object(words: list[str]) -> bool:
    """Whether these words of a type, with or without a name, are those of a pointer to an object."""
    return "*" in words and "char" not in words and "(" not in words


def parameters_of(tokens: list[str]) -> list[list[str]]:
    """The words of each parameter between the brackets of a head."""
    parts: list[list[str]] = [[]]
    depth = 0
    for token in tokens:
        depth += (token in CLOSING) - (token in CLOSING.values())
        if token == "," and depth == 0:
            parts.append([])
        else:
            parts[-1].append(token)
    return parts
