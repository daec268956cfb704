"""Where CPython's own documents are: fetched by tools/fetch_sources.sh, and not kept in the repository."""

from __future__ import annotations

import os
import subprocess
import tempfile
from pathlib import Path

#: The directory of fetched sources, unless the environment variable PUNGI_SOURCES names another one.
DIRECTORY = Path(os.environ.get("PUNGI_SOURCES", Path(tempfile.gettempdir()) / "sources"))
SCRIPT = Path(__file__).resolve().parents[1] / "fetch_sources.sh"


def documents(directory: Path = DIRECTORY) -> Path | None:
    """The directory `Doc` of CPython's sources, if they were fetched."""
    found = sorted(directory.glob("**/Doc/data/refcounts.dat"))
    return found[0].parents[1] if found else None


def fetch(directory: Path = DIRECTORY) -> Path:
    """Fetches the sources and returns the directory of CPython's documents."""
    # (one of the other packages may be out of reach, and the script's status says so)
    subprocess.run(["sh", str(SCRIPT), str(directory)], check=False)
    found = documents(directory)
    if found is None:
        raise FileNotFoundError(f"no Doc/data/refcounts.dat in {directory}")
    return found
