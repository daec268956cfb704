"""Which files are looked at, and with which flags of the compiler."""

from __future__ import annotations

import json
import shlex
from collections.abc import Iterable, Sequence
from dataclasses import dataclass
from pathlib import Path

#: Flags that change what the preprocessor gives. These take a word of their own where none follows at once.
WITH_WORD = ("-I", "-D", "-U", "-include", "-isystem", "-iquote", "-idirafter", "-imacros", "-isysroot")
ALONE = ("-std=", "-nostdinc", "-m32", "-m64", "-pthread", "-fopenmp")
#: Those of them whose word is a path.
PATHS = ("-I", "-include", "-isystem", "-iquote", "-idirafter", "-imacros", "-isysroot")


class BadDatabase(Exception):
    """A file that is no compile_commands.json."""


@dataclass(frozen=True)
class Source:
    """A C file with its flags."""

    path: str
    flags: tuple[str, ...]


def from_database(database: str, only: Sequence[str]) -> list[Source]:
    """The C files of a compile_commands.json, or those of them that are named."""
    try:
        entries = json.loads(Path(database).read_text(encoding="utf-8"))
        sources = [from_entry(entry) for entry in entries]
    except (OSError, ValueError, KeyError, TypeError, AttributeError) as fault:
        raise BadDatabase(f"{database} cannot be read as compile_commands.json: {fault}") from fault
    wanted = {str(Path(path).resolve()) for path in only}
    of_c = [s for s in sources if s.path.endswith(".c") and (not wanted or s.path in wanted)]
    return list({source.path: source for source in of_c}.values())


def from_entry(entry: dict[str, object]) -> Source:
    """One entry of a compile_commands.json."""
    folder = Path(str(entry["directory"]))
    listed = entry.get("arguments")
    words = [str(word) for word in listed] if isinstance(listed, list) else shlex.split(str(entry["command"]))
    return Source(str((folder / str(entry["file"])).resolve()), tuple(preprocessor_flags(words, folder)))


def preprocessor_flags(words: Sequence[str], folder: Path) -> Iterable[str]:
    """The flags of a compiler's command that the preprocessor needs, with paths that hold from anywhere."""
    left = list(words[1:])
    while left:
        word = left.pop(0)
        flag = next((f for f in sorted(WITH_WORD, key=len, reverse=True) if word.startswith(f)), None)
        if flag:
            value = word[len(flag) :] or (left.pop(0) if left else "")
            yield from (flag, str(folder / value) if flag in PATHS else value)
        elif word.startswith(ALONE):
            yield word


def of_package(folder: str, flags: Sequence[str]) -> list[Source]:
    """The C files below a folder."""
    return [Source(str(path), tuple(flags)) for path in sorted(Path(folder).rglob("*.c"))]
