"""Prints what the program is given, in place of what it reports."""

from __future__ import annotations

import sys
from collections.abc import Sequence

from .compilation import Source
from .configuration import write_configuration
from .judging import Settings
from .package import failure_of
from .preparation.prepare import prepare
from .preparation.reading.preprocess import NotRead, python_flags
from .results import Status


def print_prepared(sources: Sequence[Source], settings: Settings) -> Status:
    """Prints the prepared text of each module, with its configuration in a comment below it."""
    status = Status.CLEAN
    for source in sources:
        try:
            prepared = prepare(source.path, [*source.flags, *python_flags()], settings.rows, settings.options())
        except (NotRead, OSError) as fault:
            failed = failure_of(source, fault)
            print(f"{source.path}: {failed.reason}", file=sys.stderr)
            status = failed.failure or status
        else:
            configuration = write_configuration(prepared.rows, prepared.conventions, settings.profile)
            print(f"{prepared.text}\n/*\n{configuration.text}*/")
    return status
