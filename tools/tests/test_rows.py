"""The rows of the Python/C API: their files, and what CPython says of them."""

from __future__ import annotations

import re
import shutil
import sys
import tempfile
import unittest
from dataclasses import replace
from pathlib import Path
from unittest import mock

TOOLS = Path(__file__).resolve().parents[1]
sys.path.insert(0, str(TOOLS))

import check_rows
from pungi_module.model import Row
from pungi_module.rows import Output, WideRow, load_known, load_rows, load_wide_rows
from pungi_module.rows.plain import RowError, row_of
from pungi_module.rows.wide import wide_row_of
from row_checks import headers, manual, reference_counts, running, sources
from row_checks.reference_counts import Counts, Difference

CRATES = TOOLS.parent / "crates"
ANSWERS = {
    "New": "new", "Borrowed": "borrowed", "BorrowedSure": "borrowed_sure", "Status": "status", "Truth": "truth",
    "Size": "size", "Long": "long", "Void": "void", "Null": "null",
}  # fmt: skip
NO_COMPILER = shutil.which("gcc") is None
OTHER_PYTHON = sys.version_info[:2] != (3, 11)


class Files(unittest.TestCase):
    def test_each_call_has_one_row(self) -> None:
        self.assertEqual(load_rows().keys() & load_wide_rows().keys(), set())

    def test_some_rows(self) -> None:
        rows, wide = load_rows(), load_wide_rows()
        self.assertEqual(rows["PyErr_Restore"], Row(("object?",) * 3, "void", (1, 2, 3)))
        self.assertEqual(rows["PyModule_AddObject"], Row(("object", "text", "object"), "status", (), (3,)))
        self.assertEqual(wide["PyErr_Fetch"].outputs, dict.fromkeys((1, 2, 3), Output.NEW_OR_NULL))
        self.assertEqual(wide["Py_SETREF"].takes, (2,))

    def test_rows_that_say_nonsense(self) -> None:
        for table in (
            {"params": ["float"], "result": "new"},
            {"params": [], "result": "any"},
            {"params": ["int"] * 9, "result": "new"},
            {"params": ["int"], "result": "new", "takes": [1]},
            {"params": ["object"], "result": "new", "takes": [1], "takes_on_success": [1]},
            {"params": ["object"], "result": "truth", "takes_on_success": [1]},
            {"params": [], "result": "new", "gives": [1]},
        ):
            with self.subTest(table), self.assertRaises(RowError):
                row_of("f", table)
        for table in (
            {"params": ["...", "int"], "result": "new", "rest": "values"},
            {"params": ["..."], "result": "new"},
            {"params": ["output"], "result": "new", "outputs": {"1": "new"}},
            {"params": ["object"], "result": "void", "outputs": {"1": "new"}, "written": "always"},
            {"params": ["any"], "result": "void", "gives": [1]},
            {"params": ["any"], "result": "nothing"},
        ):
            with self.subTest(table), self.assertRaises(RowError):
                wide_row_of("f", table)


class AsPungiHasThem(unittest.TestCase):
    def test_known_names(self) -> None:
        text = (CRATES / "pungi_base" / "specs" / "Words.antt").read_text(encoding="utf-8")
        lists = {
            match[1]: set(re.findall(r'codes "(\w+)"', match[2]))
            for match in re.finditer(r"\n(\w+) =\n(.*?)\[\]", text, re.S)
        }
        known, old = load_known(), "rows/known.toml is no longer what Pungi knows"
        self.assertEqual(known.judged | known.reserved, lists["plain_rows"] | lists["special_rows"], old)
        others = lists["keywords"] | lists["macros"] | lists["type_words"] | lists["statics"]
        self.assertEqual(known.other, others, old)
        calls = (CRATES / "pungi_api" / "specs" / "Manual.antt").read_text(encoding="utf-8")
        self.assertEqual(known.judged, set(re.findall(r'codes "(\w+)"', calls)), old)

    def test_rows_of_known_calls(self) -> None:
        text = (CRATES / "pungi_api" / "specs" / "Manual.antt").read_text(encoding="utf-8")
        rows = load_rows()
        found = re.findall(r'call \d+ \(codes "(\w+)"\) answer\.(\w+) \((.*?)\) ∷', text)
        self.assertGreaterEqual(len(found), 64)
        for name, answer, arguments in found:
            words = [] if arguments.strip() == "[]" else [word.strip() for word in arguments.split("∷")][:-1]
            if "module_def" in words:
                continue
            plain = {"object_or_null": "object?", "stolen": "object", "stolen_on_success": "object"}
            row = Row(
                tuple(plain.get(word, word) for word in words),
                ANSWERS[answer],
                tuple(i for i, word in enumerate(words, 1) if word == "stolen"),
                tuple(i for i, word in enumerate(words, 1) if word == "stolen_on_success"),
            )
            self.assertEqual(rows[name], row, name)


class Comparing(unittest.TestCase):
    def test_list_of_counts(self) -> None:
        with tempfile.TemporaryDirectory() as directory:
            path = Path(directory) / "refcounts.dat"
            path.write_text(
                "# comment: of:the:list:\n\nPyList_New:PyObject*::+1:\nPyList_New:Py_ssize_t:len::\n\n"
                "PyErr_Format:PyObject*::null:\nPyErr_Format:PyObject*:exception:0:\nPyErr_Format::...::\n"
            )
            listed = reference_counts.read_counts(path)
        self.assertEqual(listed["PyList_New"], Counts("+1", [("Py_ssize_t", "")]))
        self.assertEqual(listed["PyErr_Format"], Counts("null", [("PyObject*", "0")]))
        rows = {"PyList_New": Row(("size",), "borrowed"), "f": Row((), "void")}
        wide = {"PyErr_Format": WideRow(("object", "text", "..."), "null")}
        self.assertEqual(
            reference_counts.differences(rows, wide, listed),
            [Difference("PyErr_Format", "parameters", "2", "1"), Difference("PyList_New", "result", "borrowed", "+1")],
        )

    def test_takes(self) -> None:
        listed = {"f": Counts("", [("PyObject*", "-1"), ("PyObject*", "0"), ("char*", "")])}
        rows = {"f": Row(("object", "object", "object"), "void", (2,))}
        self.assertEqual(
            [d.key for d in reference_counts.differences(rows, {}, listed)], ["f 1", "f 2", "f 3"]
        )  # fmt: skip

    def test_manual(self) -> None:
        lines = [
            ".. c:function:: int f(PyObject *o)", "                int g(PyObject *o)", "", "   Steals o.", "",
            "Text that steals.", ".. c:macro:: NOTHING", "", "   .. c:function:: void h(void)", "", "      More.",
        ]  # fmt: skip
        self.assertEqual([names for names, _ in manual.entries(lines)], [["f", "g"], [], ["h"]])
        described = {"f": "It steals o.", "g": "It takes the o.", "h": ""}
        rows = {"f": Row(("object",), "int"), "g": Row(("object",), "int")}
        self.assertEqual([d.key for d in manual.differences(rows, {}, described)], ["f steals", "h function"])

    def test_prototypes(self) -> None:
        text = (
            "extern PyObject * PyList_New(Py_ssize_t size) __attribute__ ((x (1)));\n"
            "static inline int f(PyObject *const *args, unsigned long, const char *__restrict s, int (*g)(void)) {\n"
        )
        found = headers.read_prototypes(text)
        self.assertEqual(found["PyList_New"], headers.Prototype("PyObject *", ("Py_ssize_t",)))
        self.assertEqual(found["f"].params[:3], ("PyObject **", "unsigned long", "char *"))
        self.assertEqual(len(found["f"].params), 4)

    def test_reports(self) -> None:
        found = [Difference("f", "result", "new", "0"), Difference("g", "1", "int", "long")]
        reasons = {"g 1": "the list is wrong", "h 2": "no more"}
        self.assertEqual(
            check_rows.report(found, reasons, complete=True),
            ["f result: the row has new, CPython 0", "h 2: no difference any more"],
        )
        self.assertEqual(len(check_rows.report(found, reasons, complete=False)), 1)


class WithCPython(unittest.TestCase):
    @unittest.skipIf(NO_COMPILER or OTHER_PYTHON, "needs gcc and CPython 3.11")
    def test_headers(self) -> None:
        found = check_rows.all_differences(None)
        self.assertEqual(check_rows.report(found, check_rows.read_reasons(), complete=False), [])

    @unittest.skipIf(NO_COMPILER or OTHER_PYTHON, "needs gcc and CPython 3.11")
    def test_everything_is_explained(self) -> None:
        documents = sources.documents()
        if documents is None:
            self.skipTest(f"no documents of CPython in {sources.DIRECTORY}: check_rows.py --fetch gets them")
        found = check_rows.all_differences(documents)
        self.assertEqual(check_rows.report(found, check_rows.read_reasons(), complete=True), [])

    @unittest.skipIf(NO_COMPILER or OTHER_PYTHON, "needs gcc and CPython 3.11")
    def test_counts_when_called(self) -> None:
        outcome = running.run()
        self.assertEqual(outcome.wrong, [])
        self.assertGreater(len(outcome.called), 550)

    @unittest.skipIf(NO_COMPILER or OTHER_PYTHON, "needs gcc and CPython 3.11")
    def test_wrong_rows_are_noticed(self) -> None:
        rows, wide = dict(load_rows()), dict(load_wide_rows())
        rows["PyDict_GetItem"] = replace(rows["PyDict_GetItem"], result="new")
        rows["PyNumber_Add"] = replace(rows["PyNumber_Add"], result="borrowed")
        rows["PyList_SetItem"] = replace(rows["PyList_SetItem"], takes=())
        rows["PyList_Append"] = replace(rows["PyList_Append"], takes=(2,))
        rows["PyModule_AddObject"] = replace(rows["PyModule_AddObject"], takes=(3,), takes_on_success=())
        wide["PyErr_Fetch"] = replace(wide["PyErr_Fetch"], outputs=dict.fromkeys((1, 2, 3), Output.BORROWED))
        changed = set(rows.items()) - set(load_rows().items())
        names = {name for name, _ in changed} | {"PyErr_Fetch"}
        with (
            mock.patch.object(running, "load_rows", return_value=rows),
            mock.patch.object(running, "load_wide_rows", return_value=wide),
        ):
            outcome = running.run(names)
        self.assertEqual({line.split()[0] for line in outcome.wrong}, names)
        self.assertEqual(len(names), 6)


if __name__ == "__main__":
    unittest.main()
