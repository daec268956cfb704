"""Runs the program `pungi` on a text."""

from __future__ import annotations

import os
import re
import shutil
import subprocess
import tempfile
from pathlib import Path

from .model import Verdict
from .report import ReportError, read_report

#: The checkout that these tools stand in.
REPOSITORY = Path(__file__).resolve().parents[2]
#: Where `./build` builds the program.
BUILT = REPOSITORY / "crates" / "pungi" / "out" / "pungi"
#: The program that is shipped, its sums, and what prints the sum of the sources of this checkout.
SHIPPED = REPOSITORY / "release" / "pungi"
SUMS = REPOSITORY / "release" / "sums"
SOURCES = REPOSITORY / "checks" / "sources.sh"
#: What the exit statuses say that come without a report.
STATUSES = {
    3: "it was called wrongly",
    4: "it cannot read a file",
    5: "it could not write its report",
    8: "it ran out of memory",
    70: "it could not be proved and built",
}
FILE_REFUSED = re.compile(r"file refused (?:(?P<line>\d+):(?P<column>\d+) )?(?P<reason>.+)\n")
CONFIGURATION_REFUSED = re.compile(r"configuration refused: (?P<reason>.+)\n")


class ProgramError(Exception):
    """The program gave no verdicts. The text says why."""


class NoProgram(ProgramError):
    """There is no program to run."""


class TimeLimit(ProgramError):
    """The program did not end within the time limit."""


class FileRefused(ProgramError):
    """The program refuses the text as a whole, at a place of it if the reason has one."""

    def __init__(self, reason: str, line: int | None, column: int | None) -> None:
        where = "" if line is None else f"{line}:{column}: "
        super().__init__(f"{where}{reason}")
        self.reason = reason
        self.line = line
        self.column = column


class ConfigurationRefused(ProgramError):
    """The program refuses the configuration. The text is the reason, or the first wrong key."""


def is_current() -> bool:
    """Whether the program that is shipped was built from the sources of this checkout."""
    if not os.access(SHIPPED, os.X_OK):
        return False
    stated = re.search(r"^sources (\S+)$", SUMS.read_text(), re.MULTILINE)
    ran = subprocess.run(["sh", SOURCES], capture_output=True, text=True, check=False)
    return stated is not None and stated[1] == ran.stdout.strip()


def find_program() -> Path:
    """The program: what the environment variable PUNGI names, else what `./build` built, else the one that is shipped if it is
    of these sources, else `pungi` on the path."""
    named = os.environ.get("PUNGI")
    if named:
        found = shutil.which(named)
        if found is None:
            raise NoProgram(f"PUNGI names {named}, which cannot be run")
        return Path(found)
    if os.access(BUILT, os.X_OK):
        return BUILT
    if is_current():
        return SHIPPED
    found = shutil.which("pungi")
    if found is None:
        raise NoProgram("no program `pungi`: run ./build once, put it on the path, or name it in PUNGI")
    return Path(found)


def judge(text: str, configuration: str = "", seconds: float = 60, program: Path | None = None) -> list[Verdict]:
    """The verdicts of the program on a text, under a configuration (none if it is empty), within a time limit."""
    if program is None:
        program = find_program()
    with tempfile.TemporaryDirectory(prefix="pungi-") as directory:
        module = Path(directory) / "module.c"
        module.write_text(text, encoding="utf-8", errors="surrogateescape")
        words = [str(program)]
        if configuration:
            calls = Path(directory) / "calls.toml"
            calls.write_text(configuration, encoding="utf-8")
            words += ["--config", str(calls)]
        return run(words + [str(module)], seconds)


def run(words: list[str], seconds: float) -> list[Verdict]:
    """Runs a command line of the program and reads its report."""
    try:
        done = subprocess.run(words, capture_output=True, timeout=seconds, check=False)
    except subprocess.TimeoutExpired as error:
        raise TimeLimit(f"the program did not end within {seconds:g} s") from error
    except OSError as error:
        raise NoProgram(f"{words[0]} cannot be run: {error.strerror}") from error
    output = done.stdout.decode("utf-8", errors="replace")
    if done.returncode == 6:
        raise refusal(output)
    if done.returncode == 7:
        raise ConfigurationRefused(whole(CONFIGURATION_REFUSED, output)["reason"])
    if done.returncode not in (0, 1, 2):
        said = output.strip() or done.stderr.decode("utf-8", errors="replace").strip()
        what = STATUSES.get(done.returncode, f"it ended with status {done.returncode}")
        raise ProgramError(f"the program: {what}{': ' if said else ''}{said}")
    verdicts = read_report(output)
    expected = status_of(verdicts)
    if done.returncode != expected:
        raise ReportError(f"status {done.returncode} with a report whose status is {expected}")
    return verdicts


def status_of(verdicts: list[Verdict]) -> int:
    """The exit status that belongs to a report."""
    words = {verdict.word for verdict in verdicts}
    if "faulty" in words:
        return 1
    return 2 if words & {"unknown", "refused"} else 0


def refusal(output: str) -> FileRefused:
    """The refusal of a file that the program printed."""
    match = whole(FILE_REFUSED, output)
    if match["line"] is None:
        return FileRefused(match["reason"], None, None)
    return FileRefused(match["reason"], int(match["line"]), int(match["column"]))


def whole(pattern: re.Pattern[str], output: str) -> re.Match[str]:
    """The match of a whole output. Another output is an error."""
    match = pattern.fullmatch(output)
    if match is None:
        raise ReportError(output)
    return match
