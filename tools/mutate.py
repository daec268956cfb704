#!/usr/bin/env python3
"""Makes mutants of the clean functions of modules, and prints how many of them are found.

    python3 tools/mutate.py [--count N] [--seed S] [--folder FOLDER] [FILE.c.. [-- CFLAGS]]

Where no file is named, the modules are those of fetch_sources.sh. A mutant is found where the program reports its
function as faulty. One that is not is printed: either the count matters on no path, or the preparation has lost it.
"""

from __future__ import annotations

import argparse
import os
import sys
import tempfile
import time
from collections import Counter
from dataclasses import replace
from pathlib import Path

sys.path.insert(0, str(Path(__file__).resolve().parent))

from fetched import FOLDER, packages  # noqa: E402
from mutants import Mutant, chosen, mutants  # noqa: E402
from pungi_module.command import split  # noqa: E402
from pungi_module.compilation import Source  # noqa: E402
from pungi_module.configuration import write_configuration  # noqa: E402
from pungi_module.findings import Word  # noqa: E402
from pungi_module.judging import Settings, looked_at  # noqa: E402
from pungi_module.package import report_of  # noqa: E402
from pungi_module.preparation.prepare import prepare  # noqa: E402
from pungi_module.preparation.reading.preprocess import NotRead, python_flags  # noqa: E402
from pungi_module.program import ProgramError, find_program, judge  # noqa: E402
from pungi_module.reached import reached  # noqa: E402
from pungi_module.replay.definitions import calls_in, with_only  # noqa: E402


def text_of(source: Source) -> str:
    """The text of a source."""
    return Path(source.path).read_text(encoding="latin-1")


def clean_functions(source: Source, settings: Settings) -> dict[str, int]:
    """The clean functions that stand in the source itself, with their lines."""
    return {f.function: f.place.line for f in report_of(source, looked_at(source, settings)).findings
            if f.word is Word.CLEAN and Path(f.place.file).name == Path(source.path).name}


def word_of(source: Source, settings: Settings, function: str) -> str:
    """What the program reports of a function of a source, judged without the others but those that it calls, or else
    without these."""
    options = settings.options()
    try:
        while True:
            prepared = prepare(source.path, [*source.flags, *python_flags()], settings.rows, options)
            calls = calls_in(prepared.text)
            text = with_only(prepared.text, reached([function], calls))
            configuration = write_configuration(prepared.rows, prepared.conventions, settings.profile)
            verdicts = judge(text, configuration.text, settings.seconds, settings.program)
            found = [verdict for verdict in verdicts if verdict.function == function]
            if not found or not calls[function] or found[0].word in ("clean", "faulty"):
                return f"{found[0].word} {found[0].reason or ''}".strip() if found else "not prepared"
            as_rows = {(function, callee) for callee in calls[function]}
            options = replace(options, calls_as_rows=options.calls_as_rows | as_rows)
    except (NotRead, ProgramError) as fault:
        return f"not judged ({fault})"


def mutated(source: Source, mutant: Mutant, settings: Settings) -> str:
    """What the program reports of a mutant, which stands among links to the files beside the original."""
    path = Path(source.path).resolve()
    with tempfile.TemporaryDirectory(prefix="pungi_mutant_") as folder:
        for beside in path.parent.iterdir():
            if beside.name != path.name:
                os.symlink(beside, Path(folder, beside.name))
        changed = Path(folder, path.name)
        changed.write_text(mutant.applied(text_of(source)), encoding="latin-1")
        return word_of(Source(str(changed), source.flags), settings, mutant.function)


def all_mutants(sources: list[Source], settings: Settings) -> dict[tuple[str, str], list[tuple[Source, Mutant]]]:
    """The mutants of the clean functions of all sources, by the source and by what is changed."""
    found: dict[tuple[str, str], list[tuple[Source, Mutant]]] = {}
    for source in sources:
        for mutant in mutants(text_of(source), clean_functions(source, settings)):
            found.setdefault((source.path, mutant.what), []).append((source, mutant))
    return found


def counted(words: dict[str, Counter[str]]) -> list[str]:
    """The table of what was found, by what is changed."""
    rows = [*sorted(words.items()), ("all", sum(words.values(), Counter()))]
    lines = ["| Change | Mutants | Found | Others |", "|---|---|---|---|"]
    for what, found in rows:
        others = ", ".join(f"{word} {n}" for word, n in found.most_common() if word != "faulty") or "0"
        lines.append(f"| {what} | {found.total()} | {found['faulty']} | {others} |")
    return lines


def main() -> int:
    """Tries the mutants, and prints those that are not found and the table."""
    own, flags = split(sys.argv[1:])
    words = argparse.ArgumentParser(description="Tries mutants of the clean functions of modules.")
    words.add_argument("files", nargs="*", metavar="FILE.c")
    words.add_argument("--folder", default=str(FOLDER), help="where fetch_sources.sh put the modules")
    words.add_argument("--count", type=int, default=150, help="how many mutants are tried")
    words.add_argument("--seed", type=int, default=5)
    asked = words.parse_args(own)
    settings, start = Settings(program=find_program()), time.monotonic()
    sources = [Source(path, tuple(flags)) for path in asked.files]
    if not sources:
        sources = [source for _, of_package in packages(Path(asked.folder)) for source in of_package]
    groups = all_mutants(sources, settings)
    found: dict[str, Counter[str]] = {}
    for source, mutant in chosen(groups, asked.count, asked.seed):
        word = mutated(source, mutant, settings)
        found.setdefault(mutant.what, Counter())[word] += 1
        if word != "faulty":
            print(f"{word}: {source.path}:{mutant.line}: {mutant.function}: {mutant.what}", flush=True)
    print("\n".join(counted(found)))
    print(f"mutate: {sum(map(len, groups.values()))} mutants, {time.monotonic() - start:.0f} s", file=sys.stderr)
    return 0


if __name__ == "__main__":
    sys.exit(main())
