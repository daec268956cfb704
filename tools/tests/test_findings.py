"""Tests of what is made of verdicts: the findings, the run in words, and the formats."""

from __future__ import annotations

import json
import tempfile
import unittest
from dataclasses import replace
from pathlib import Path

import samples
from pungi_module.findings import Word, findings_of
from pungi_module.formats import FORMATS, Shown
from pungi_module.model import Assumption, OwnConvention, Place, Verdict
from pungi_module.results import Report, Status, Strictness, status_of


class Findings(unittest.TestCase):
    """The findings of the sample."""

    def setUp(self) -> None:
        folder = tempfile.TemporaryDirectory()
        self.addCleanup(folder.cleanup)
        self.file = str(Path(folder.name, "box.c"))
        Path(self.file).write_text(samples.TEXT, encoding="utf-8")
        self.findings = findings_of(samples.judged(self.file), samples.is_weak)
        self.named = {finding.function: finding for finding in self.findings}

    def printed(self, name: str, shown: Shown = Shown()) -> str:
        """The findings in a format."""
        return FORMATS[name]([Report(self.file, self.findings)], shown)

    def test_words(self) -> None:
        words = {name: finding.word for name, finding in self.named.items()}
        self.assertEqual(words, {"Box_round": Word.FAULT, "twice": Word.DOUBTFUL, "same": Word.CLEAN, "deep": Word.OPEN,
                                 "odd": Word.NOT_PREPARED, "first": Word.CONVENTION})

    def test_function_that_is_open_at_a_place(self) -> None:
        judged = samples.judged(self.file)
        for cause, callee in (("loop", None), ("number", None), ("call", "twice")):
            verdicts = {**judged.verdicts, "same": Verdict("same", "unknown", cause, 29, 5, callee=callee)}
            found = findings_of(replace(judged, verdicts=verdicts), samples.is_weak)[2]
            self.assertEqual((found.function, found.word, found.cause), ("same", Word.OPEN, cause))
            self.assertEqual((found.place.line, found.place.column), (29, 5))
            self.assertIn("no fault was found" if callee else "nothing is wrong", found.message)
            self.assertIn(f"the call of {callee}" if callee else "", found.message)

    def test_assumption_of_a_line_without_text(self) -> None:
        judged = samples.judged(self.file)
        judged.prepared.places = {at: place for at, place in judged.prepared.places.items() if place.line != 20}
        self.assertEqual(judged.prepared.line_before(Place(self.file, 20, 5)), 18)
        self.assertIsNone(judged.prepared.line_before(Place("other.c", 20, 5)))
        self.assertEqual(findings_of(judged, samples.is_weak)[1].word, Word.DOUBTFUL)
        judged.prepared.functions[1].assumptions[0] = Assumption("element", "args[1]", Place(self.file, 26, 1))
        self.assertEqual(findings_of(judged, samples.is_weak)[1].word, Word.FAULT)

    def test_fault_through_a_callee_is_named_there(self) -> None:
        self.assertEqual(self.named["Box_round"].also, ["Box_rounded"])

    def test_run_with_counts(self) -> None:
        lines = [(t.place.line, t.words, t.owned) for t in self.named["Box_round"].lines]
        self.assertEqual(lines, [
            (7, "PyObject_GetAttrString returns a new reference to round", 1),
            (10, "PyObject_CallObject fails", None),
            (12, "return, with 1 reference too many", None),
        ])

    def test_run_of_a_function_that_takes_over_a_parameter(self) -> None:
        judged = samples.judged(self.file)
        judged.prepared.conventions["twice"] = OwnConvention(takes=(2,))
        verdicts = {**judged.verdicts, "twice": Verdict("twice", "faulty", run=replace(samples.TWICE, escaped=0))}
        found = findings_of(replace(judged, verdicts=verdicts), samples.is_weak)[1]
        self.assertEqual(found.message, "twice leaks 2 references to x (an argument)")
        self.assertEqual([(t.place.line, t.words, t.owned) for t in found.lines], [
            (18, "twice takes over a reference to x", 1),
            (20, "Py_INCREF", 2),
            (21, "Py_INCREF", 3),
            (22, "return, with 2 references too many", None),
        ])

    def test_run_of_a_function_that_lends_its_result(self) -> None:
        judged = samples.judged(self.file)
        judged.prepared.conventions["twice"] = OwnConvention(returns_borrowed=True)
        verdicts = {**judged.verdicts, "twice": Verdict("twice", "faulty", run=replace(samples.TWICE, escaped=0))}
        found = findings_of(replace(judged, verdicts=verdicts), samples.is_weak)[1]
        self.assertEqual([(t.words, t.owned) for t in found.lines],
                         [("Py_INCREF", 1), ("Py_INCREF", 2), ("return, with 2 references too many", None)])

    def test_messages(self) -> None:
        self.assertEqual(self.named["twice"].message, "twice leaks 1 reference to x (an argument)")
        self.assertEqual(self.named["first"].message,
                         "first gives up 1 reference to self->item that it does not own (self->item in line 53)")

    def test_text(self) -> None:
        text = self.printed("text")
        self.assertIn(f"{self.file}:12:9: fault: Box_round leaks 1 reference to round", text)
        self.assertIn("\n            return NULL;\n            ^\n", text)
        self.assertIn("rests on element: args[1] (line 20)", text)
        self.assertIn('        [convention.first]\n        returns = "borrowed"\n', text)
        self.assertTrue(text.endswith("1 fault, 1 doubtful, 1 convention, 1 clean, 1 open, 1 not prepared\n"))
        self.assertNotIn("\x1b", text)
        self.assertIn("\x1b[1;31mfault\x1b[0m", self.printed("text", Shown(colours=True)))

    def test_strict_text(self) -> None:
        self.assertIn("clean: same, if declared", self.printed("text", Shown(Strictness.STRICT, clean=True)))

    def test_github(self) -> None:
        lines = self.printed("github").splitlines()
        levels = [line.split(" ")[0] for line in lines]
        self.assertEqual(levels, ["::error", "::warning", "::notice", "::notice", "::notice"])
        self.assertIn(",line=12,col=9,title=fault%3A Box_round::Box_round leaks", lines[0])
        self.assertIn("%0Aline 10: PyObject_CallObject fails", lines[0])

    def test_sarif(self) -> None:
        value = json.loads(self.printed("sarif"))
        self.assertEqual(value["version"], "2.1.0")
        run = value["runs"][0]
        rules = {rule["id"] for rule in run["tool"]["driver"]["rules"]}
        self.assertEqual([r["level"] for r in run["results"]], ["error", "warning", "note", "note", "note"])
        self.assertLessEqual({r["ruleId"] for r in run["results"]}, rules)
        steps = run["results"][0]["codeFlows"][0]["threadFlows"][0]["locations"]
        self.assertEqual(steps[0]["location"]["physicalLocation"]["region"]["startLine"], 7)

    def test_json(self) -> None:
        module = json.loads(self.printed("json"))["modules"][0]
        self.assertEqual(module["counts"]["fault"], 1)
        self.assertEqual(module["findings"][0]["run"][0]["owned"], 1)

    def test_failure(self) -> None:
        failed = Report("no.c", failure=Status.NOT_READ, reason="cannot be read")
        for name, printed in FORMATS.items():
            self.assertIn("cannot be read", printed([failed], Shown()), name)

    def test_status(self) -> None:
        def status(words: list[str], strictness: Strictness = Strictness.MIDDLE) -> Status:
            return status_of([Report("x.c", [f for f in self.findings if f.function in words])], strictness)

        self.assertEqual(status(["same"]), Status.CLEAN)
        self.assertEqual(status(["same", "Box_round", "deep"]), Status.FAULT)
        self.assertEqual(status(["same", "deep"]), Status.NOT_JUDGED)
        self.assertEqual(status(["twice"]), Status.NOT_JUDGED)
        self.assertEqual(status(["twice"], Strictness.STRICT), Status.FAULT)
        self.assertEqual(status(["twice"], Strictness.LENIENT), Status.CLEAN)


if __name__ == "__main__":
    unittest.main()
