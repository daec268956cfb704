"""Reading reports, and running a program that stands in for `pungi`."""

from __future__ import annotations

import os
import subprocess
import sys
import tempfile
import unittest
from pathlib import Path
from unittest import mock

sys.path.insert(0, str(Path(__file__).resolve().parents[1]))

from pungi_module import program
from pungi_module.model import Run, Step, Value, Verdict
from pungi_module.program import (
    ConfigurationRefused, FileRefused, NoProgram, ProgramError, TimeLimit, find_program, judge,
)  # fmt: skip
from pungi_module.report import ReportError, read_report
from with_program import ProgramCase

#: The report of the README on crates/pungi/data/helpers.c.
REPORT = """\
clean same
clean answer
clean number
faulty twice 45:5 object 25 change 2 escaped 1
  objects 26
  argument object 24
  argument object 25
clean nothing
faulty append_one 58:9 object 26 change 1 escaped 0
  objects 28
  argument object 24
  argument object 25
  57:29 object 26
  57:9 int -1
clean keep_first
refused cache_size 74:26 N9
"""
OBJECT = Value("object", 24), Value("object", 25)
STAND_IN = """\
#!{python}
import sys, time
words = sys.argv[1:]
with open({seen!r}, "w") as seen:
    for word in words:
        seen.write(open(word).read() if word.endswith((".c", ".toml")) else word + "\\n")
time.sleep({wait})
sys.stdout.write({report!r})
sys.exit({status})
"""


class Reports(unittest.TestCase):
    def test_report_of_the_readme(self) -> None:
        verdicts = read_report(REPORT)
        self.assertEqual(
            [(verdict.function, verdict.word) for verdict in verdicts],
            [
                ("same", "clean"), ("answer", "clean"), ("number", "clean"), ("twice", "faulty"),
                ("nothing", "clean"), ("append_one", "faulty"), ("keep_first", "clean"), ("cache_size", "refused"),
            ],
        )  # fmt: skip
        self.assertEqual(verdicts[3].run, Run(45, 5, 25, 2, 1, 26, OBJECT, ()))
        steps = (Step(57, 29, Value("object", 26)), Step(57, 9, Value("int", -1)))
        run = Run(58, 9, 26, 1, 0, 28, OBJECT, steps)
        self.assertEqual(verdicts[5], Verdict("append_one", "faulty", None, 58, 9, run))
        self.assertEqual(verdicts[7], Verdict("cache_size", "refused", "N9", 74, 26))

    def test_unknown(self) -> None:
        forms = {
            "unknown f traces": Verdict("f", "unknown", "traces"),
            "unknown f shapes": Verdict("f", "unknown", "shapes"),
            "unknown f number 1:40": Verdict("f", "unknown", "number", 1, 40),
            "unknown f range 2:3": Verdict("f", "unknown", "range", 2, 3),
            "unknown f loop 1:37": Verdict("f", "unknown", "loop", 1, 37),
            "unknown f call 1:53 drip": Verdict("f", "unknown", "call", 1, 53, callee="drip"),
        }
        for line, verdict in forms.items():
            with self.subTest(line):
                self.assertEqual(read_report(line + "\n"), [verdict])

    def test_values(self) -> None:
        lines = "faulty f 1:2 object 3 change -1 escaped -2\n  objects 4\n  argument null\n  argument text\n"
        lines += "  argument int -9\n  1:2 given 3\n  1:3 failed 0\n  1:4 null\n  1:5 text\n"
        run = read_report(lines)[0].run
        self.assertEqual((run.change, run.escaped), (-1, -2))
        self.assertEqual(run.arguments, (Value("null"), Value("text"), Value("int", -9)))
        self.assertEqual(
            [step.value for step in run.steps], [Value("given", 3), Value("failed", 0), Value("null"), Value("text")]
        )

    def test_lines_that_no_report_has(self) -> None:
        fault = "faulty f 1:2 object 3 change 1 escaped 0\n"
        wrong = {
            "clean\n": "clean",
            "clean f 1:2\n": "clean f 1:2",
            "clear f\n": "clear f",
            "refused f 1:2 9\n": "refused f 1:2 9",
            "unknown f time\n": "unknown f time",
            "unknown f number\n": "unknown f number",
            "unknown f traces 1:2\n": "unknown f traces 1:2",
            "\n": "",
            "  objects 3\n": "  objects 3",
            "clean f\n  objects 3\n": "  objects 3",
            fault: "no run below: " + fault[:-1],
            fault + "  argument null\n": "  argument null",
            fault + "  objects 3\n  argument 4\n": "  argument 4",
            fault + "  objects 3\n  1:2 null\n  argument null\n": "  argument null",
            fault + "  objects 3\n  1:2 object\n": "  1:2 object",
            fault + "  objects 3\n  more\n": "  more",
            "clean f": "the last line is cut off: clean f",
        }
        for text, said in wrong.items():
            with self.subTest(text), self.assertRaises(ReportError) as raised:
                read_report(text)
            self.assertEqual(str(raised.exception), said)


class Running(unittest.TestCase):
    def setUp(self) -> None:
        directory = tempfile.TemporaryDirectory()
        self.addCleanup(directory.cleanup)
        self.directory = Path(directory.name)
        self.seen = self.directory / "seen"

    def stand_in(self, report: str, status: int, wait: float = 0) -> Path:
        """A program that prints this report and ends with this status."""
        path = self.directory / "stand_in"
        path.write_text(
            STAND_IN.format(python=sys.executable, seen=str(self.seen), report=report, status=status, wait=wait)
        )
        path.chmod(0o755)
        return path

    def test_statuses_with_a_report(self) -> None:
        for report, status in ((REPORT, 1), ("clean f\n", 0), ("clean f\nunknown g traces\n", 2), ("", 0)):
            with self.subTest(report):
                self.assertEqual(judge("", program=self.stand_in(report, status)), read_report(report))

    def test_words_and_files(self) -> None:
        judge("int x;\n", "[function]\n", program=self.stand_in("", 0))
        self.assertEqual(self.seen.read_text(), "--config\n[function]\nint x;\n")
        judge("int x;\n", program=self.stand_in("", 0))
        self.assertEqual(self.seen.read_text(), "int x;\n")

    def test_status_that_does_not_fit(self) -> None:
        with self.assertRaises(ReportError):
            judge("", program=self.stand_in(REPORT, 0))

    def test_file_refused(self) -> None:
        for line, wanted in (
            ("file refused 12:7 not a unit\n", ("not a unit", 12, 7)),
            ("file refused over 1048576 bytes\n", ("over 1048576 bytes", None, None)),
        ):
            with self.subTest(line), self.assertRaises(FileRefused) as raised:
                judge("", program=self.stand_in(line, 6))
            error = raised.exception
            self.assertEqual((error.reason, error.line, error.column), wanted)

    def test_configuration_refused(self) -> None:
        with self.assertRaises(ConfigurationRefused) as raised:
            judge("", "x", program=self.stand_in("configuration refused: function.f.takes\n", 7))
        self.assertEqual(str(raised.exception), "function.f.takes")

    def test_refusals_in_another_form(self) -> None:
        for status in (6, 7):
            with self.subTest(status), self.assertRaises(ReportError):
                judge("", program=self.stand_in("refused\n", status))

    def test_other_statuses(self) -> None:
        words = {3: "wrongly", 4: "cannot read", 5: "report", 8: "memory", 70: "built", 99: "99"}
        for status, said in words.items():
            with self.subTest(status), self.assertRaises(ProgramError) as raised:
                judge("", program=self.stand_in("", status))
            self.assertIn(said, str(raised.exception))

    def test_time_limit(self) -> None:
        with self.assertRaises(TimeLimit):
            judge("", seconds=0.2, program=self.stand_in("", 0, wait=5))

    def test_program_that_cannot_be_run(self) -> None:
        with self.assertRaises(NoProgram):
            judge("", program=self.directory / "absent")

    def test_where_the_program_is_looked_for(self) -> None:
        path = self.stand_in("", 0)
        with mock.patch.dict(os.environ, {"PUNGI": str(path)}):
            self.assertEqual(find_program(), path)
        with mock.patch.dict(os.environ, {"PUNGI": str(path) + "x"}), self.assertRaises(NoProgram):
            find_program()
        absent = self.directory / "absent"
        without = mock.patch.dict(os.environ, {"PUNGI": "", "PATH": str(self.directory)})
        with without, mock.patch.object(program, "BUILT", path):
            self.assertEqual(find_program(), path)
        built = mock.patch.object(program, "BUILT", absent)
        with without, built, mock.patch.object(program, "SHIPPED", path):
            with mock.patch.object(program, "is_current", return_value=True):
                self.assertEqual(find_program(), path)
            with mock.patch.object(program, "is_current", return_value=False), self.assertRaises(NoProgram):
                find_program()
        with without, built, mock.patch.object(program, "SHIPPED", absent):
            with self.assertRaises(NoProgram):
                find_program()
            path.rename(self.directory / "pungi")
            self.assertEqual(find_program(), self.directory / "pungi")

    def test_whether_the_shipped_program_is_current(self) -> None:
        shipped = self.stand_in("", 0)
        sums = self.directory / "sums"
        with mock.patch.object(program, "SHIPPED", shipped), mock.patch.object(program, "SUMS", sums):
            ran = subprocess.run(["sh", program.SOURCES], capture_output=True, text=True, check=True)
            sums.write_text(f"program 0\nsources {ran.stdout}kit k\n")
            self.assertTrue(program.is_current())
            sums.write_text("program 0\nsources 0\nkit k\n")
            self.assertFalse(program.is_current())
        with mock.patch.object(program, "SHIPPED", self.directory / "absent"):
            self.assertFalse(program.is_current())


class WithTheProgram(ProgramCase):
    def test_report_of_the_readme(self) -> None:
        helpers = program.REPOSITORY / "crates" / "pungi" / "data" / "helpers.c"
        self.assertEqual(judge(helpers.read_text(), program=self.program), read_report(REPORT))

    def test_refusals(self) -> None:
        with self.assertRaises(FileRefused) as raised:
            judge("int f(void) { return 1 }\n", program=self.program)
        self.assertEqual((raised.exception.reason, raised.exception.line), ("not a unit", 1))
        with self.assertRaises(ConfigurationRefused):
            judge("", "[function.f]\n", program=self.program)


if __name__ == "__main__":
    unittest.main()
