"""From a source file to the tree of its declarations."""

from __future__ import annotations

import os
import re
import sys
import tempfile
from dataclasses import dataclass
from functools import lru_cache
from pathlib import Path

from pycparser import c_ast, c_parser

from . import parse_cache, unknown_types
from .bodies import Body, bodies, include_lines, without_bodies, without_numbers
from .preprocess import NotRead, preprocess

#: How many bodies that do not parse are dropped before the file is given up.
DROPPED_LIMIT = 25

#: Trees are deep: a chain of `else if` is one level a link.
RECURSION_LIMIT = 20_000


#: The declarations of Python's headers that were read, by a mark of their text.
_HEADERS: dict[str, c_ast.FileAST] = {}


@dataclass
class ParsedFile:
    """A module's declarations as pycparser reads them."""

    path: str
    tree: c_ast.FileAST
    #: For each other file of the module, the line of the source that includes it.
    include_lines: dict[str, int]
    #: Bodies that do not parse: the file and line of the `{`, and why.
    dropped: dict[tuple[str, int], str]
    notes: list[str]

    def is_own(self, file: str | None) -> bool:
        """The file belongs to the module: it stands in the source's directory or below."""
        return is_own(self.path, file)


@lru_cache(maxsize=4096)
def is_own(path: str, file: str | None) -> bool:
    """The file stands in the directory of the source or below."""
    if not file or file.endswith("pungi_shim.h") or file.startswith("<"):
        return False
    return os.path.abspath(file).startswith(os.path.dirname(os.path.abspath(path)) + os.sep)


def error_place(error: Exception, parser: c_parser.CParser) -> tuple[str, int]:
    """Where the text cannot be read: as pycparser's message says, or where its lexer stands."""
    match = re.match(r"(.*?):(\d+):", str(error))
    if match:
        return match.group(1), int(match.group(2))
    return parser.clex.filename, vars(parser.clex).get("_lineno", 0)


def blamed(text: str, place: tuple[str, int], dropped: dict[tuple[str, int], str], path: str) -> Body | None:
    """The last body that begins before the place in its file and is not dropped yet."""
    before = [body for body in bodies(text) if body.file == place[0] and body.line <= place[1]
              and is_own(path, body.file) and (body.file, body.line) not in dropped]
    return max(before, key=lambda body: body.line, default=None)


def split(text: str, path: str) -> tuple[str, str]:
    """The text of Python's headers, which the shim includes, and the module's own."""
    shim = text.find("pungi_shim.h")
    marker = text.find('\n# 1 "%s"' % path, max(shim, 0))
    return (text[:marker + 1], text[marker + 1:]) if shim >= 0 and marker >= 0 else ("", text)


def parse_headers(path: str, text: str) -> c_ast.FileAST:
    """The declarations of Python's headers; those that were parsed before are kept."""
    mark = parse_cache.entry(text).name
    found = _HEADERS.get(mark) or parse_cache.kept(text)
    if found is None:
        stripped = without_bodies(text, lambda body: True)
        try:
            found = c_parser.CParser().parse(stripped, path)
        except Exception as error:  # pycparser raises errors of several unrelated classes
            raise NotRead(str(error)) from error
        parse_cache.keep(text, found)
    _HEADERS[mark] = found
    return found


def parse_text(path: str, text: str) -> tuple[c_ast.FileAST, dict[tuple[str, int], str]]:
    """The declarations of a text, and the bodies that do not parse; what was parsed before is kept."""
    headers_text, own_text = split(text, path)
    headers = parse_headers(path, headers_text)
    found = parse_cache.kept(text)
    if found is None:
        found = parse_own(path, without_numbers(own_text), headers)
        parse_cache.keep(text, found)
    return c_ast.FileAST(headers.ext + found[0]), found[1]


def parse_own(path: str, own_text: str, headers: c_ast.FileAST) -> tuple[list[c_ast.Node], dict[tuple[str, int], str]]:
    """Parses the text without foreign bodies; a body that does not parse is dropped, and it is tried again."""
    names = [node.name for node in headers.ext if isinstance(node, c_ast.Typedef)]
    unknown: list[str] = []
    dropped: dict[tuple[str, int], str] = {}
    for _ in range(DROPPED_LIMIT + unknown_types.LIMIT):
        stripped = without_bodies(own_text, lambda body: not is_own(path, body.file)
                                  or (body.file, body.line) in dropped)
        # the parser has to know which words are types: what it makes of these lines is left out again
        known = "".join("typedef int %s;\n" % name for name in names)
        known += "".join("typedef void *%s;\n" % name for name in unknown)
        parser = c_parser.CParser()
        try:
            tree = parser.parse(known + stripped, path)
            return tree.ext[len(names):], dropped
        except Exception as error:  # pycparser raises errors of several unrelated classes
            mend(path, own_text, error_place(error, parser), str(error), set(names), unknown, dropped)
    raise NotRead("too much of the file cannot be parsed")


def mend(path: str, text: str, place: tuple[str, int], reason: str, names: set[str], unknown: list[str],
         dropped: dict[tuple[str, int], str]) -> None:
    """Makes a type of a word that stands for one where the text cannot be read, or drops the body there."""
    word = unknown_types.unknown_type(text, place, names | set(unknown))
    if word is not None and len(unknown) < unknown_types.LIMIT:
        unknown.append(word)
        return
    body = blamed(text, place, dropped, path)
    if body is None or len(dropped) >= DROPPED_LIMIT:
        raise NotRead(reason)
    dropped[body.file, body.line] = reason


def parse(path: str, flags: list[str]) -> ParsedFile:
    """The source file, preprocessed and parsed."""
    sys.setrecursionlimit(max(sys.getrecursionlimit(), RECURSION_LIMIT))
    with tempfile.TemporaryDirectory(prefix="pungi-module-") as work:
        read = preprocess(path, flags, Path(work))
    tree, dropped = parse_text(path, read.text)
    lines = include_lines(read.text, path, lambda file: is_own(path, file))
    return ParsedFile(path, tree, lines, dropped, read.notes)
