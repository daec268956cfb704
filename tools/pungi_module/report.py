"""Reads a report of the program, in the forms of the README's 'What a report means'."""

from __future__ import annotations

import re
from collections.abc import Callable, Iterator

from .model import Run, Step, Value, Verdict

NAME = r"(?P<name>[A-Za-z_]\w*)"
PLACE = r"(?P<line>\d+):(?P<column>\d+)"
CLEAN = re.compile(rf"clean {NAME}")
FAULTY = re.compile(
    rf"faulty {NAME} {PLACE} object (?P<object>\d+) change (?P<change>-?\d+) escaped (?P<escaped>-?\d+)"
)
REFUSED = re.compile(rf"refused {NAME} {PLACE} (?P<rule>N\d+)")
UNKNOWN = re.compile(rf"unknown {NAME} (?P<reason>traces|shapes)")
UNKNOWN_AT = re.compile(rf"unknown {NAME} (?P<reason>range|number|loop) {PLACE}")
UNKNOWN_CALL = re.compile(rf"unknown {NAME} (?P<reason>call) {PLACE} (?P<callee>[A-Za-z_]\w*)")
OBJECTS = re.compile(r"  objects (\d+)")
ARGUMENT = re.compile(r"  argument (.+)")
STEP = re.compile(rf"  {PLACE} (?P<value>.+)")
VALUE = re.compile(r"(?P<kind>null|text)|(?P<counted>object|given|failed) (?P<count>\d+)|int (?P<int>-?\d+)")


class ReportError(ValueError):
    """A line of a report that has none of the known forms. The text is the line, or what is missing."""


def read_report(text: str) -> list[Verdict]:
    """The verdicts of a report, one for each function, in its order."""
    if text and not text.endswith("\n"):
        raise ReportError(f"the last line is cut off: {text.splitlines()[-1]}")
    blocks: list[list[str]] = []
    for line in text.splitlines():
        if not line.startswith("  "):
            blocks.append([line])
        elif blocks:
            blocks[-1].append(line)
        else:
            raise ReportError(line)
    return [read_block(block[0], block[1:]) for block in blocks]


def read_block(head: str, run: list[str]) -> Verdict:
    """The verdict on one function: its line, and the lines of the run below it."""
    if match := FAULTY.fullmatch(head):
        return read_fault(match, run)
    if run:
        raise ReportError(run[0])
    forms: list[tuple[re.Pattern[str], Callable[[re.Match[str]], Verdict]]] = [
        (CLEAN, lambda m: Verdict(m["name"], "clean")),
        (REFUSED, lambda m: Verdict(m["name"], "refused", m["rule"], int(m["line"]), int(m["column"]))),
        (UNKNOWN, lambda m: Verdict(m["name"], "unknown", m["reason"])),
        (UNKNOWN_AT, read_unknown),
        (UNKNOWN_CALL, lambda m: read_unknown(m, m["callee"])),
    ]
    for pattern, verdict in forms:
        if match := pattern.fullmatch(head):
            return verdict(match)
    raise ReportError(head)


def read_unknown(match: re.Match[str], callee: str | None = None) -> Verdict:
    """A verdict `unknown` that has a place."""
    return Verdict(
        match["name"], "unknown", match["reason"], int(match["line"]), int(match["column"]), callee=callee
    )  # fmt: skip


def read_fault(head: re.Match[str], lines: list[str]) -> Verdict:
    """A verdict `faulty` with its run."""
    line, column = int(head["line"]), int(head["column"])
    rest = iter(lines)
    first = next(rest, None)
    objects = OBJECTS.fullmatch(first) if first is not None else None
    if objects is None:
        raise ReportError(first if first is not None else f"no run below: {head.string}")
    arguments, steps = read_values(rest)
    run = Run(
        line=line,
        column=column,
        object=int(head["object"]),
        change=int(head["change"]),
        escaped=int(head["escaped"]),
        objects=int(objects[1]),
        arguments=tuple(arguments),
        steps=tuple(steps),
    )
    return Verdict(head["name"], "faulty", None, line, column, run)


def read_values(lines: Iterator[str]) -> tuple[list[Value], list[Step]]:
    """The arguments and then the steps of a run."""
    arguments: list[Value] = []
    steps: list[Step] = []
    for line in lines:
        if not steps and (match := ARGUMENT.fullmatch(line)):
            arguments.append(read_value(match[1], line))
        elif match := STEP.fullmatch(line):
            steps.append(Step(int(match["line"]), int(match["column"]), read_value(match["value"], line)))
        else:
            raise ReportError(line)
    return arguments, steps


def read_value(text: str, line: str) -> Value:
    """A value as a run prints it."""
    match = VALUE.fullmatch(text)
    if match is None:
        raise ReportError(line)
    if match["kind"]:
        return Value(match["kind"])
    if match["counted"]:
        return Value(match["counted"], int(match["count"]))
    return Value("int", int(match["int"]))
