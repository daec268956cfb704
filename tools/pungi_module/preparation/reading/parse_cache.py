"""The trees of texts that were parsed before, in a folder of the user's."""

from __future__ import annotations

import hashlib
import os
import pickle
import re
import tempfile
import zlib
from pathlib import Path
from typing import Any

import pycparser

#: Changes with the form of what is kept.
VERSION = "2"

#: Files that are kept; the oldest go.
FILE_LIMIT = 500


def folder() -> Path:
    """Where trees are kept (XDG Base Directory Specification)."""
    base = os.environ.get("XDG_CACHE_HOME") or os.path.expanduser("~/.cache")
    return Path(base) / "pungi-module"


def without_file_names(text: str, work: str = r"pungi-module-\w+") -> str:
    """The text without the names of folders that go away, and of the file that includes it."""
    return re.sub(work, "", re.sub(r'^# 0 "[^"]*"', "", text, flags=re.M))


def entry(text: str) -> Path:
    """The file for a text."""
    key = "\0".join((VERSION, pycparser.__version__, without_file_names(text)))
    return folder() / (hashlib.sha256(key.encode("utf-8", "replace")).hexdigest() + ".tree")


def kept(text: str) -> Any | None:
    """What was kept for a text."""
    try:
        return pickle.loads(zlib.decompress(entry(text).read_bytes()))
    except (OSError, zlib.error, pickle.UnpicklingError, EOFError, AttributeError, ImportError):
        return None


def keep(text: str, found: Any) -> None:
    """Keeps what a text was parsed to; where that cannot be written, nothing is kept."""
    try:
        folder().mkdir(parents=True, exist_ok=True)
        with tempfile.NamedTemporaryFile(dir=folder(), delete=False) as out:
            out.write(zlib.compress(pickle.dumps(found), 1))
        os.replace(out.name, entry(text))
        files = sorted(folder().glob("*.tree"), key=lambda file: file.stat().st_mtime)
        for file in files[:-FILE_LIMIT]:
            file.unlink(missing_ok=True)
    except (OSError, RecursionError):
        return
