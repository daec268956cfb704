"""The configuration of a run, and the file of conventions."""

from __future__ import annotations

import sys
import tomllib
import unittest
from pathlib import Path

sys.path.insert(0, str(Path(__file__).resolve().parents[1]))

from pungi_module.configuration import MOST_BYTES, MOST_CONVENTIONS, MOST_ROWS, Profile, write_configuration
from pungi_module.convention_file import (
    Convention, ConventionError, extend, merge, read_conventions,
)  # fmt: skip
from pungi_module.model import OwnConvention, Row
from pungi_module.program import ConfigurationRefused, judge
from pungi_module.rows import Output, load_rows
from with_program import ProgramCase

CONVENTIONS = """
# What psycopg2 lends.
[convention.curs_get]
returns = "borrowed"
takes = [2]
outputs = { 3 = "new?" }

[function.library_call]
params = ["object", "text"]
result = "status"
takes = [1]

[struct.Node]
borrowed = ["parent", "owner"]
"""


class Written(unittest.TestCase):
    def test_rows(self) -> None:
        rows = {
            "library_new": Row(("text", "object?"), "new", (), (2,)),
            "library_steal": Row(("object",), "void", (1,)),
            "PyList_New": Row(("size",), "new"),
        }
        written = write_configuration(rows)
        self.assertEqual(
            written.text,
            '[function.library_new]\nparams = ["text", "object?"]\nresult = "new"\ntakes_on_success = [2]\n'
            '[function.library_steal]\nparams = ["object"]\nresult = "void"\ntakes = [1]\n',
        )
        self.assertEqual(written.left_out, {})

    def test_nothing_to_write(self) -> None:
        self.assertEqual(write_configuration({"Py_INCREF": Row(("object",), "void")}).text, "")

    def test_rows_that_the_program_refuses(self) -> None:
        rows = {
            "many": Row(("int",) * 9, "void"),
            "while": Row((), "void"),
            "PyObject_New": Row(("object",), "void"),
            "two words": Row((), "void"),
            "odd": Row(("int",), "void", (1,)),
            "late": Row(("object",), "void", (), (1,)),
            "wrong": Row((), "any"),
        }
        written = write_configuration(rows)
        self.assertEqual(written.text, "")
        self.assertEqual(list(written.left_out), list(rows))
        self.assertEqual(written.left_out["PyObject_New"], "Pungi knows the name")
        self.assertEqual(written.left_out["two words"], "no word of C")

    def test_too_many_rows(self) -> None:
        written = write_configuration({f"f{i}": Row((), "void") for i in range(MOST_ROWS + 2)})
        self.assertEqual(len(tomllib.loads(written.text)["function"]), MOST_ROWS)
        self.assertEqual(list(written.left_out), [f"f{MOST_ROWS}", f"f{MOST_ROWS + 1}"])

    def test_too_many_bytes(self) -> None:
        written = write_configuration({f"f{i}" + "x" * 990: Row((), "void") for i in range(80)})
        self.assertLessEqual(len(written.text), MOST_BYTES)
        self.assertEqual(set(written.left_out.values()), {"over 65,536 bytes"})
        self.assertGreater(len(written.text), MOST_BYTES - 1200)

    def test_conventions(self) -> None:
        conventions = {
            "lends": OwnConvention(returns_borrowed=True),
            "plain": OwnConvention(),
            "takes": OwnConvention(takes=(1, 3)),
            "while": OwnConvention(takes=(1,)),
            "both": OwnConvention(True, (2,)),
        }
        written = write_configuration({"calls": Row((), "void")}, conventions)
        self.assertEqual(
            written.text,
            '[convention.lends]\nreturns = "borrowed"\n[convention.takes]\ntakes = [1, 3]\n'
            '[convention.both]\nreturns = "borrowed"\ntakes = [2]\n'
            '[function.calls]\nparams = []\nresult = "void"\n',
        )
        self.assertEqual(written.left_out, {"while": "Pungi knows the name"})

    def test_too_many_conventions(self) -> None:
        conventions = {f"f{i}": OwnConvention(takes=(1,)) for i in range(MOST_CONVENTIONS + 1)}
        written = write_configuration({"g": Row((), "void")}, conventions)
        self.assertEqual(written.left_out, {f"f{MOST_CONVENTIONS}": "over 512 conventions"})
        tables = tomllib.loads(written.text)
        self.assertEqual((len(tables["convention"]), list(tables["function"])), (MOST_CONVENTIONS, ["g"]))

    def test_profile(self) -> None:
        self.assertEqual(write_configuration({}, {}, Profile.PYTHON_311).text, "")
        written = write_configuration({"g": Row((), "void")}, {"f": OwnConvention(True)}, Profile.PYTHON_312)
        tables = tomllib.loads(written.text)
        self.assertEqual((tables["profile"], list(tables)), ("3.12", ["profile", "convention", "function"]))

    def test_what_is_written_is_what_is_read(self) -> None:
        rows = dict(list(load_rows().items())[:500])
        tables = tomllib.loads(write_configuration(rows).text)["function"]
        for name, table in tables.items():
            takes = (tuple(table.get(key, ())) for key in ("takes", "takes_on_success"))
            self.assertEqual(Row(tuple(table["params"]), table["result"], *takes), rows[name])


class Read(unittest.TestCase):
    def test_conventions(self) -> None:
        declared = read_conventions(CONVENTIONS)
        self.assertEqual(
            declared.conventions,
            {"curs_get": Convention("curs_get", "borrowed", (2,), {3: Output.NEW_OR_NULL})},
        )
        self.assertEqual(declared.rows, {"library_call": Row(("object", "text"), "status", (1,))})
        self.assertEqual(declared.borrowed_fields, {"Node": frozenset({"parent", "owner"})})

    def test_nothing(self) -> None:
        self.assertEqual(read_conventions("").conventions, {})

    def test_wrong_files(self) -> None:
        wrong = {
            "x = ": "not TOML",
            "[profile]": "profile:",
            "convention = 1": "convention: no table",
            "[convention.f]": "convention.f: no table, or an empty one",
            '[convention."f g"]\ntakes = [1]': "convention.f g: no word of C",
            "[convention.f]\nresult = 1": "convention.f.result:",
            '[convention.f]\nreturns = "stolen"': "convention.f.returns:",
            "[convention.f]\ntakes = [0]": "convention.f.takes:",
            "[convention.f]\ntakes = [1, 1]": "convention.f.takes:",
            "[convention.f]\ntakes = [true]": "convention.f.takes:",
            '[convention.f]\noutputs = { 1 = "old" }': "convention.f.outputs:",
            '[function.f]\nresult = "new"': "function.f: no `params`",
            '[function.f]\nparams = ["float"]\nresult = "new"': "function.f.params:",
            '[function.f]\nparams = 1\nresult = "new"': "function.",
            '[function.f]\nparams = []\nresult = "new"\n[convention.f]\ntakes = [1]': "function.f: declared as a",
            "[struct.S]\nfields = []": "struct.S:",
            "[struct.S]\nborrowed = [1]": "struct.S.borrowed:",
        }
        for text, begin in wrong.items():
            with self.subTest(text), self.assertRaises(ConventionError) as raised:
                read_conventions(text)
            self.assertTrue(str(raised.exception).startswith(begin), str(raised.exception))

    def test_the_author_keeps_what_was_written(self) -> None:
        found = [Convention("curs_get", takes=(1,)), Convention("more", "borrowed", (1, 3)), Convention("library_call")]
        text = extend(CONVENTIONS, found)
        self.assertTrue(text.startswith(CONVENTIONS))
        self.assertEqual(read_conventions(text), merge(read_conventions(CONVENTIONS), found))
        self.assertEqual(extend(text, found), text)
        self.assertEqual(read_conventions(text).conventions["more"], found[1])
        self.assertEqual(read_conventions(text).conventions["curs_get"].takes, (2,))


class WithTheProgram(ProgramCase):
    def test_all_rows_are_accepted(self) -> None:
        rows = load_rows()
        names = list(rows)
        for begin in range(0, len(names), MOST_ROWS):
            part = {name: rows[name] for name in names[begin : begin + MOST_ROWS]}
            written = write_configuration(part)
            self.assertEqual(written.left_out, {})
            verdicts = judge("void f(void) { PyErr_Clear(); }\n", written.text, program=self.program)
            self.assertEqual([verdict.word for verdict in verdicts], ["clean"])

    def test_conventions_and_profile(self) -> None:
        text = """PyObject *lends(PyObject *x) { return x; }
            void takes(PyObject *x, PyObject *y) { Py_XDECREF(y); }
            PyObject *none(void) { return Py_None; }
            int unfit(PyObject *x) { return 0; }"""
        conventions = {"lends": OwnConvention(True), "takes": OwnConvention(takes=(2,)), "unfit": OwnConvention(True)}
        words = {}
        for profile in Profile:
            written = write_configuration({}, conventions, profile)
            words[profile] = [v.reason or v.word for v in judge(text, written.text, program=self.program)]
        self.assertEqual(words[Profile.PYTHON_311], ["clean", "clean", "faulty", "N17"])
        self.assertEqual(words[Profile.PYTHON_312], ["clean", "clean", "clean", "N17"])

    def test_as_many_conventions_as_are_written(self) -> None:
        written = write_configuration({}, {f"f{i}": OwnConvention(True) for i in range(MOST_CONVENTIONS + 1)})
        verdicts = judge("PyObject *f9(PyObject *x) { return x; }\n", written.text, program=self.program)
        self.assertEqual([verdict.word for verdict in verdicts], ["clean"])

    def test_known_names_are_those_of_the_program(self) -> None:
        for name in ("PyList_New", "Py_CLEAR", "while", "PyObject"):
            text = f'[function.{name}]\nparams = []\nresult = "void"\n'
            with self.subTest(name), self.assertRaises(ConfigurationRefused):
                judge("void f(void) { }\n", text, program=self.program)


if __name__ == "__main__":
    unittest.main()
