"""The command line of pungi-module."""

from __future__ import annotations

import argparse
import os
import sys
from collections.abc import Sequence
from dataclasses import replace
from pathlib import Path

from .compilation import BadDatabase, Source, from_database, of_package
from .configuration import Profile
from .convention_file import Convention, ConventionError, Declared, extend, read_conventions
from .formats import FORMATS, Shown
from .judging import SECONDS, Settings
from .package import judge_package, report_of
from .printing import print_prepared
from .program import NoProgram, find_program
from .results import Report, Status, Strictness, status_of

DESCRIPTION = "Finds reference-counting errors in C sources of Python extension modules as they stand."
#: The file of a package to which conventions are written.
FOUND_FILE = "pungi-conventions.toml"
STATUSES = "exit status: 0 all clean, 1 a fault, 2 something not judged, 3 usage, 4 a file not read, 6 not parsed"


class Usage(Exception):
    """A wrong command line."""


class Parser(argparse.ArgumentParser):
    """A parser whose errors have the status of this tool."""

    def error(self, message: str) -> None:  # type: ignore[override]
        raise Usage(f"{self.format_usage()}pungi-module: {message}")


def parser() -> Parser:
    """The words of the command."""
    words = Parser(prog="pungi-module", description=DESCRIPTION, epilog=STATUSES)
    words.add_argument("files", nargs="*", metavar="FILE.c", help="C files; flags of the compiler follow after `--`")
    words.add_argument("--assume", metavar="FILE.toml", help="conventions that the author declares")
    words.add_argument("--format", choices=FORMATS, default="text", help="how findings are printed")
    strictness = words.add_mutually_exclusive_group()
    strictness.add_argument("--strict", action="store_const", dest="strictness", const=Strictness.STRICT,
                            default=Strictness.MIDDLE, help="a doubtful finding counts as a fault")
    strictness.add_argument("--lenient", action="store_const", dest="strictness", const=Strictness.LENIENT,
                            help="a doubtful finding counts as nothing")
    words.add_argument("--show", action="append", default=[], choices=("prepared", "assumptions", "clean"),
                       help="print the prepared text, the assumptions of each function, or clean functions as well")
    words.add_argument("--only", metavar="NAME,..", help="the functions that are reported")
    words.add_argument("--python", choices=[one.value for one in Profile], default=Profile.PYTHON_311.value,
                       help="the version by which functions are judged: 3.12 does not count None, True and False")
    words.add_argument("--init-twice", action="store_true", help="__init__ may run twice on one object")
    words.add_argument("--package", metavar="DIR", help="all C files below a folder, in which conventions are kept")
    words.add_argument("--compdb", metavar="compile_commands.json", help="take the files, or their flags, from it")
    words.add_argument("--seconds", type=float, default=SECONDS, help="how long the program may judge one module")
    words.add_argument("--jobs", type=int, default=len(os.sched_getaffinity(0)), help="how many modules at a time")
    return words


def sources_of(asked: argparse.Namespace, flags: Sequence[str]) -> list[Source]:
    """The modules that are asked for."""
    if asked.compdb:
        named = asked.files + ([str(s.path) for s in of_package(asked.package, ())] if asked.package else [])
        sources = from_database(asked.compdb, named)
        return [Source(source.path, (*source.flags, *flags)) for source in sources]
    sources = [Source(path, tuple(flags)) for path in asked.files]
    sources += of_package(asked.package, flags) if asked.package else []
    if not sources:
        raise Usage(f"{parser().format_usage()}pungi-module: no C file is named")
    return sources


def declared_by(path: str | None) -> Declared:
    """What the author declares."""
    if path is None:
        return Declared()
    try:
        return read_conventions(Path(path).read_text(encoding="utf-8"))
    except OSError as fault:
        raise Usage(f"pungi-module: {path} cannot be read: {fault.strerror}") from fault
    except (ConventionError, UnicodeDecodeError) as fault:
        raise Usage(f"pungi-module: {path}: {fault}") from fault


def run(words: Sequence[str]) -> Status:
    """Runs the command."""
    own, flags = split(words)
    asked = parser().parse_args(own)
    sources = sources_of(asked, flags)
    settings = Settings(declared_by(asked.assume), asked.init_twice, asked.seconds, profile=Profile(asked.python))
    if "prepared" in asked.show:
        return print_prepared(sources, settings)
    settings = replace(settings, program=find_program())
    only = set(asked.only.split(",")) if asked.only else None
    package, found = judge_package(sources, settings, asked.jobs)
    if asked.package:
        keep_conventions(Path(asked.package, FOUND_FILE), found)
    reports = [with_only(report_of(source, one), only) for source, one in zip(sources, package, strict=True)]
    colours = asked.format == "text" and sys.stdout.isatty() and "NO_COLOR" not in os.environ
    shown = Shown(asked.strictness, "clean" in asked.show, "assumptions" in asked.show, colours)
    sys.stdout.write(FORMATS[asked.format](reports, shown))
    return status_of(reports, asked.strictness)


def keep_conventions(path: Path, found: Sequence[Convention]) -> None:
    """Adds the conventions that were found to the file of a package, which its author reads and keeps."""
    before = path.read_text(encoding="utf-8") if path.exists() else ""
    text = extend(before, found)
    if text != before:
        path.write_text(text, encoding="utf-8")
        print(f"pungi-module: conventions in {path}; give it to --assume once you have read it", file=sys.stderr)


def split(words: Sequence[str]) -> tuple[list[str], list[str]]:
    """The tool's own words, and the compiler's flags after `--`."""
    place = list(words).index("--") if "--" in words else len(words)
    return list(words[:place]), list(words[place + 1 :])


def with_only(report: Report, names: set[str] | None) -> Report:
    """A report of these functions alone, or of all."""
    if names is not None:
        report.findings = [finding for finding in report.findings if finding.function in names]
    return report


def main() -> int:
    """The whole command, with its exit status."""
    try:
        return int(run(sys.argv[1:]))
    except Usage as fault:
        print(fault, file=sys.stderr)
    except BrokenPipeError:
        os.dup2(os.open(os.devnull, os.O_WRONLY), sys.stdout.fileno())
    except (BadDatabase, ConventionError, NoProgram, OSError) as fault:
        print(f"pungi-module: {fault}", file=sys.stderr)
    return int(Status.USAGE)
