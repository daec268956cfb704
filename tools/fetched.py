"""The released modules that fetch_sources.sh fetches, with their flags."""

from __future__ import annotations

import tempfile
from pathlib import Path

from pungi_module.compilation import Source

#: Where fetch_sources.sh puts them where no folder is named.
FOLDER = Path(tempfile.gettempdir()) / "sources"

CPYTHON = "_bisectmodule _heapqmodule _queuemodule _operator _csv _json xxlimited _struct".split()
POSTGRES = ("-Iheaders/libpq-dev/usr/include/postgresql", '-DPSYCOPG_VERSION="2.9.5"', "-DPY_SSIZE_T_CLEAN",
            "-DHAVE_LO64=1")
MYSQL = ("-Iheaders/libmariadb-dev/usr/include/mariadb", '-D__version__="1.4.6"', "-Dversion_info=(1,4,6,'final',0)")


def packages(folder: Path) -> list[tuple[str, list[Source]]]:
    """The modules by the name of their package; of one that is not there, no modules."""
    modules = folder / "python3.11" / "Modules"
    named = [(name, [modules / f"{name}.c"], ("-I" + str(modules),)) for name in CPYTHON]
    named.append(("psycopg2", sorted((folder / "psycopg2" / "psycopg").glob("*.c")), POSTGRES))
    named.append(("multidict", [folder / "multidict" / "multidict" / "_multidict.c"], ()))
    named.append(("mysqlclient", [folder / "mysqlclient" / "MySQLdb" / "_mysql.c"], MYSQL))
    placed = {name: tuple(f.replace("-Iheaders", f"-I{folder}/headers") for f in flags) for name, _, flags in named}
    return [(name, [Source(str(path), placed[name]) for path in paths if path.exists()]) for name, paths, _ in named]
