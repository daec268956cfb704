"""Tests of judging: what the program does not take is left out, and a text that is too much is judged in parts."""

from __future__ import annotations

import sys
import tempfile
import tomllib
import unittest
from pathlib import Path
from unittest import mock

sys.path.insert(0, str(Path(__file__).resolve().parent.parent))

import running  # noqa: E402
from pungi_module import judge, parts  # noqa: E402
from pungi_module.compilation import Source  # noqa: E402
from pungi_module.configuration import MOST_CONVENTIONS, Profile  # noqa: E402
from pungi_module.findings import Word, findings_of  # noqa: E402
from pungi_module.falling_back import better_as_rows  # noqa: E402
from pungi_module.judged import Judged, Known  # noqa: E402
from pungi_module.judging import Settings, in_the_way, judge_module  # noqa: E402
from pungi_module.model import OwnConvention, Place, Prepared, PreparedFunction, Row, Verdict  # noqa: E402
from pungi_module.program import FileRefused, ProgramError, TimeLimit  # noqa: E402
from pungi_module.reasons import reason_of  # noqa: E402
from pungi_module.replay.definitions import definitions_of, place_at, with_only  # noqa: E402
from with_program import ProgramCase  # noqa: E402

MODULE = """#include <Python.h>
static PyObject *odd(PyObject *x) { Py_INCREF(x); return x; }
static PyObject *same(PyObject *x) { return odd(x); }
"""
#: Of four functions the first calls the second.
TEXT = "".join(f"int {name}(void) {{ return {'b()' if name == 'a' else 0}; }}\n" for name in "abcd")


def clean(text: str) -> list[Verdict]:
    """Verdicts that all functions of a text are clean."""
    return [Verdict(name, "clean") for name in definitions_of(text)]


class InTheWay(unittest.TestCase):
    """Functions that are refused for which others are refused."""

    def verdicts(self, **reasons: str) -> dict[str, Verdict]:
        """Refusals of functions by these rules."""
        return {name: Verdict(name, "refused", rule) for name, rule in reasons.items()}

    def test_callee_with_a_rule_of_its_own(self) -> None:
        place = Place("x.c", 1, 1)
        functions = [PreparedFunction("f", place, 1, calls=["g"]), PreparedFunction("g", place, 2, calls=["h"]),
                     PreparedFunction("h", place, 3)]
        prepared = Prepared("x.c", "", {}, functions)
        self.assertEqual(in_the_way(prepared, self.verdicts(f="N9", g="N9", h="N2")).keys(), {"h"})
        self.assertEqual(in_the_way(prepared, self.verdicts(h="N2")).keys(), set())


class Parts(unittest.TestCase):
    """Texts that take too long."""

    def judged(self, slow: str, error: type[ProgramError] = TimeLimit) -> dict[str, str]:
        """The words of all functions where the program does not end on a text that defines one of these."""
        def judge(text: str, *_: object) -> list[Verdict]:
            if set(slow) & definitions_of(text).keys():
                raise error("too much")
            return clean(text)

        with mock.patch.object(parts, "judge", judge):
            return {v.function: v.word for v in parts.judged_in_parts(TEXT, "", 1, None)}

    def test_only_what_takes_long_is_unknown(self) -> None:
        self.assertEqual(self.judged("d"), {"a": "clean", "b": "clean", "c": "clean", "d": "unknown"})

    def test_what_calls_it_takes_long_too(self) -> None:
        self.assertEqual(self.judged("b"), {"a": "unknown", "b": "unknown", "c": "clean", "d": "clean"})

    def test_other_errors_are_passed_on(self) -> None:
        with self.assertRaises(ProgramError):
            self.judged("d", ProgramError)


class OnceJudged(unittest.TestCase):
    """A function that stands as it stood is judged once."""

    def asked(self, *modules: Prepared) -> list[set[str]]:
        """The functions that the program is asked about by each module in turn."""
        asked = []

        def judged(text: str, *_: object) -> list[Verdict]:
            asked.append(set(definitions_of(text)))
            return clean(text)

        with mock.patch.object(judge, "judged_in_parts", judged):
            one = judge.Judge()
            for module in modules:
                self.assertEqual([v.function for v in one(module)], list(definitions_of(module.text)))
        return asked

    def module(self, text: str, result: str = "new", **conventions: OwnConvention) -> Prepared:
        """A module in which `look` is a row with this result, and functions have these conventions."""
        return Prepared("x.c", text, {"look": Row((), result)}, [], conventions=conventions)

    def test_what_changes_is_judged_again(self) -> None:
        text = "int f(void) { return look(); }\nint g(void) { return 0; }\nint h(void) { return f(); }\n"
        module = self.module(text)
        self.assertEqual(self.asked(module, module), [{"f", "g", "h"}])
        self.assertEqual(self.asked(module, self.module(text, "borrowed")), [{"f", "g", "h"}, {"f", "h"}])
        other = self.module(text.replace("return 0", "return 1"))
        self.assertEqual(self.asked(module, other), [{"f", "g", "h"}, {"g"}])
        self.assertEqual(self.asked(module, self.module("int a;\n" + text)), [{"f", "g", "h"}] * 2)
        self.assertEqual(self.asked(module, self.module(with_only(text, {"g"}))), [{"f", "g", "h"}])


    def test_convention_counts_for_its_function_alone(self) -> None:
        text = "int f(PyObject *x) { return 1; }\nint g(PyObject *x) { return f(x); }\n"
        module, other = self.module(text), self.module(text, f=OwnConvention(takes=(1,)))
        self.assertEqual(self.asked(module, other, module, other), [{"f", "g"}, {"f"}])

    def test_what_is_configured(self) -> None:
        text = "int f(PyObject *x) { return look(); }\nint g(PyObject *x) { return f(x); }\nint h(void) { return 0; }\n"
        takes = OwnConvention(takes=(1,))
        with mock.patch.object(judge, "judged_in_parts", return_value=[]) as judged:
            judge.Judge(profile=Profile.PYTHON_312)(self.module(text, f=takes, g=takes, other=takes))
        tables = tomllib.loads(judged.call_args.args[1])
        self.assertEqual((tables["profile"], list(tables["convention"]), list(tables["function"])),
                         ("3.12", ["f", "g"], ["look"]))

    def test_functions_whose_conventions_are_too_many(self) -> None:
        names = [f"f{at}" for at in range(MOST_CONVENTIONS + 1)]
        text = "".join(f"void {name}(PyObject *x) {{ }}\n" for name in names)
        module = self.module(text, **dict.fromkeys(names, OwnConvention(takes=(1,))))
        with mock.patch.object(judge, "judged_in_parts", lambda text, *_: clean(text)):
            verdicts = {v.function: v for v in judge.Judge()(module)}
        self.assertEqual({v.word for v in verdicts.values()}, {"clean", "unknown"})
        self.assertIn("more conventions", reason_of(verdicts[names[-1]]))


class AsRows(unittest.TestCase):
    """Calls that are better rows."""

    TEXT = """int f(void) { return g() + h(); }\nint g(void) { return 1; }\nint h(void) { return 1 + 1 + k(); }
int k(void) { return 2; }\n"""

    def asked(self, *before: tuple[str, str], **words: str) -> set[tuple[str, str]]:
        """What becomes rows under these verdicts, where all others are clean, after what became rows before."""
        verdicts = {name: Verdict(name, words.get(name, "clean")) for name in "fghk"}
        kept = {"f": ["g", "h"], "h": ["k"]}
        functions = [PreparedFunction(name, Place("x.c", at, 1), at, kept=kept.get(name, []))
                     for at, name in enumerate("fghk", 1)]
        known = Known(calls_as_rows=frozenset(before))
        judged = Judged(Prepared("x.c", self.TEXT, {}, functions), verdicts, {}, known=known)
        return set(better_as_rows(judged, lambda name: False))

    def test_functions_that_are_not_judged(self) -> None:
        self.assertEqual(self.asked(), set())
        self.assertEqual(self.asked(f="unknown"), {("f", "h")})
        self.assertEqual(self.asked(f="unknown", g="faulty"), {("f", "g")})
        self.assertEqual(self.asked(("f", "k"), f="unknown"), {("f", "g"), ("f", "h")})
        self.assertEqual(self.asked(f="unknown", g="unknown", h="refused"), {("f", "g"), ("f", "h"), ("h", "k")})

    def test_functions_that_are_faulty(self) -> None:
        self.assertEqual(self.asked(f="faulty"), set())
        self.assertEqual(self.asked(g="faulty"), set())
        self.assertEqual(self.asked(f="faulty", g="faulty"), {("f", "g")})
        self.assertEqual(self.asked(f="faulty", k="faulty"), {("f", "h")})
        self.assertEqual(self.asked(f="faulty", h="unknown"), {("h", "k")})


class Through(ProgramCase):
    """Functions that the program judges through what they call."""

    SOURCE = """static PyObject *lend(PyObject *list) { return PyList_GetItem(list, 0); }
        PyObject *first(PyObject *list) { return Py_XNewRef(lend(list)); }
        static PyObject *make(void) { return PyList_New(0); }
        PyObject *lose(PyObject *x) { if (!make()) return NULL; Py_RETURN_NONE; }
        PyObject *pass(PyObject *x) { return lose(x); }
        static int many(PyObject *x, int n) { int i; for (i = 0; i %s n; i++) Py_INCREF(x);
            for (i = 0; i %s n; i++) Py_DECREF(x); return 0; }
        PyObject *again(PyObject *x) { PyObject *l = make(); if (!l || many(x, 9) < 0) { Py_XDECREF(l); return NULL; }
            return l; }
        static void down(PyObject *x, int n) { PyObject *l = make(); Py_XDECREF(l); if (n) down(x, n - 1); }
        void all(PyObject *x) { down(x, 3); }"""

    def test_words(self) -> None:
        found = self.words(self.SOURCE % ("!=", "!="))
        row = {"callee as a row"}
        self.assertEqual(found, {
            "lend": (Word.FAULT, set()), "first": (Word.CLEAN, set()), "make": (Word.CLEAN, set()),
            "lose": (Word.FAULT, set()), "pass": (Word.CLEAN, row), "many": (Word.CLEAN, set()),
            "again": (Word.CLEAN, set()), "down": (Word.CLEAN, row), "all": (Word.CLEAN, row)})

    def test_callee_that_is_open(self) -> None:
        found = self.words(self.SOURCE % ("<", "<"))
        self.assertEqual(found["many"][0], Word.OPEN)
        self.assertEqual(found["again"], (Word.CLEAN, {"callee as a row"}))


@unittest.skipIf(running.missing(), running.missing())
class Rounds(unittest.TestCase):
    """A module of which the program refuses a function."""

    def test_function_at_which_the_text_is_refused(self) -> None:
        def judge(prepared: Prepared) -> list[Verdict]:
            definitions = definitions_of(prepared.text)
            if "odd" in definitions:
                raise FileRefused("nested over 64", *place_at(prepared.text, definitions["odd"].body + 2))
            return clean(prepared.text)

        with tempfile.TemporaryDirectory() as folder:
            path = Path(folder, "module.c")
            path.write_text(MODULE, encoding="utf-8")
            judged = judge_module(Source(str(path), ()), Settings(), judge)
            found = {f.function: f for f in findings_of(judged, lambda name: False)}
        self.assertEqual({name: f.word for name, f in found.items()}, {"odd": Word.OPEN, "same": Word.CLEAN})
        self.assertIn("nested over 64", found["odd"].message)
        self.assertEqual([a.name for a in found["same"].rests_on], ["default row for a function of the file"])


if __name__ == "__main__":
    unittest.main()
