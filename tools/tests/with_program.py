"""Tests that need the program: they are skipped, and say so, where it is not built."""

import tempfile
import unittest
from pathlib import Path

from preparation_runs import HEAD
from pungi_module.compilation import Source
from pungi_module.convention_file import Declared
from pungi_module.findings import Word
from pungi_module.judging import Settings, looked_at
from pungi_module.package import report_of
from pungi_module.program import NoProgram, find_program


class ProgramCase(unittest.TestCase):
    """A test beside the program that `./pungi` builds, or the one that the environment names."""

    def setUp(self) -> None:
        try:
            self.program = find_program()
        except NoProgram as error:
            self.skipTest(str(error))

    def words(self, source: str, declared: Declared = Declared()) -> dict[str, tuple[Word, set[str]]]:
        """The word of each finding in a source that includes Python.h, and the names of what it rests on."""
        with tempfile.TemporaryDirectory(prefix="pungi-test-") as folder:
            path = Path(folder, "module.c")
            path.write_text(HEAD + source, encoding="utf-8")
            one = Source(str(path), ())
            found = report_of(one, looked_at(one, Settings(declared, program=self.program))).findings
        return {f.function: (f.word, {a.name for a in f.rests_on}) for f in found}
