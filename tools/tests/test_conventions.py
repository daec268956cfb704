"""Conventions: functions of texts, variants of modules, what is found with a stand-in judge and with the program."""

from __future__ import annotations

import re
import sys
import tempfile
import unittest
from pathlib import Path

sys.path.insert(0, str(Path(__file__).resolve().parents[1]))

from preparation_runs import HEAD
from pungi_module.compilation import Source
from pungi_module.configuration import write_configuration
from pungi_module.convention_file import Convention
from pungi_module.conventions import find_conventions
from pungi_module.findings import Word
from pungi_module.function_text import find_functions
from pungi_module.model import OwnConvention, Place, Prepared, PreparedFunction, Row, RowSource, Verdict
from pungi_module.judging import Settings
from pungi_module.package import judge_package, report_of
from pungi_module.program import TimeLimit, judge
from pungi_module.replay.definitions import definitions_of, with_only
from pungi_module.trials import Trial, clean_trials, with_copies
from pungi_module.variant import row_under, variant
from with_program import ProgramCase

PLACE = Place("m.c", 1, 1)
MODULE = """\
typedef struct { PyObject_HEAD PyObject *item; } Box;
static PyObject *kept;
PyObject *peek(PyObject *x) { return x; }
void drop(PyObject *x) { Py_XDECREF(x); }
PyObject *swap(PyObject *a, int n, PyObject *b) { Py_DECREF(a); return b; }
PyObject *leak(PyObject *x) { Py_INCREF(x); Py_INCREF(x); return x; }
PyObject *none(PyObject *self) { if (self == NULL) return Py_None; return Py_None; }
PyObject *item(Box *self) { return self->item; }
int size(PyObject *x) { return 1; }
"""


def prepared(text: str, rows: dict[str, Row] | None = None, calls: dict[str, list[str]] | None = None) -> Prepared:
    """A module with this text."""
    functions = [
        PreparedFunction(name, PLACE, 1, calls=(calls or {}).get(name, [])) for name in find_functions(text)
    ]  # fmt: skip
    return Prepared("m.c", text, rows or {}, functions)


class Texts(unittest.TestCase):
    def test_functions(self) -> None:
        functions = find_functions(MODULE)
        self.assertEqual(list(functions), ["peek", "drop", "swap", "leak", "none", "item", "size"])
        swap = functions["swap"]
        self.assertTrue(swap.returns_object)
        self.assertEqual(swap.objects, (1, 3))
        self.assertEqual(swap.words, frozenset("{ } ( ) ; Py_DECREF a return b".split()))
        self.assertFalse(functions["size"].returns_object)

    def test_what_is_no_function(self) -> None:
        text = (
            "struct s { int a; };\nstatic int t[] = { 1, 2 };\nint f(const char *s);\n"
            '/* int g(void) { } */\nchar *h(char *s) { if (s) { return "}"; } return s; } // {\n'
        )
        functions = find_functions(text)
        self.assertEqual(list(functions), ["h"])
        self.assertFalse(functions["h"].returns_object)
        self.assertEqual(functions["h"].objects, ())

    def test_bodies_that_are_left_out(self) -> None:
        text = "int f(void) {\n  return 1; }\nint g(void) { return f(); }\nint h(void) { return 2; }\n"
        self.assertEqual(
            with_only(text, {"g"}),
            "int f(void) ;\n" + " " * 13 + "\nint g(void) { return f(); }\nint h(void) ;" + " " * 12 + "\n",
        )


class Variants(unittest.TestCase):
    def configured(self, conventions: list[Convention], known: dict[str, OwnConvention] | None = None) -> str:
        """What the program is told of the functions of a module under these conventions."""
        module = prepared(MODULE)
        module.conventions |= known or {}
        changed = variant(module, {one.name: one for one in conventions})
        self.assertEqual(changed.text, MODULE)
        return write_configuration(changed.rows, changed.conventions).text

    def test_conventions(self) -> None:
        self.assertEqual(
            self.configured([Convention("swap", "borrowed", (3, 1)), Convention("absent", "borrowed")]),
            '[convention.swap]\nreturns = "borrowed"\ntakes = [1, 3]\n',
        )

    def test_what_does_not_fit(self) -> None:
        self.assertEqual(self.configured([Convention("swap", takes=(2, 9)), Convention("size", "borrowed")]), "")

    def test_conventions_that_the_preparation_knew(self) -> None:
        known = {"swap": OwnConvention(takes=(3,)), "peek": OwnConvention(returns_borrowed=True)}
        self.assertEqual(
            self.configured([Convention("swap", takes=(1,))], known),
            '[convention.swap]\ntakes = [1, 3]\n[convention.peek]\nreturns = "borrowed"\n',
        )

    def test_rows(self) -> None:
        row = Row(("object", "text", "object?"), "new", takes_on_success=(3,))
        taking = Convention("g", "borrowed", (1, 2))
        self.assertEqual(row_under(row, taking, (1, 2, 3)), Row(row.params, "borrowed", (1,)))
        self.assertEqual(row_under(row, taking, (3, 1, 2)), Row(row.params, "borrowed", (3,)))
        self.assertEqual(row_under(row, taking, ()), Row(row.params, "borrowed"))
        self.assertEqual(row_under(row, Convention("g", takes=(3,)), (1, 2, 3)), Row(row.params, "new", (3,)))
        self.assertEqual(row_under(Row((), "status"), taking, ()), Row((), "status"))


class StandIn:
    """A judge that calls a function, or a copy of it, clean where it has this convention, and a row that its line calls
    this value. All others are faulty."""

    def __init__(
        self, conventions: dict[str, OwnConvention | None], rows: dict[str, tuple[str, Row]] | None = None
    ) -> None:
        self.conventions = conventions
        self.rows = rows or {}

    def __call__(self, module: Prepared) -> list[Verdict]:
        verdicts = []
        for line in module.text.splitlines():
            for name, wanted in self.conventions.items():
                found = re.search(rf"\b({name}(__\d+)?)\(", line.split("{")[0])
                if found and "{" in line:
                    call, row = self.rows.get(name, ("", None))
                    called = re.search(rf"\b{call}(__\d+)?\(", line)
                    clean = module.conventions.get(found[1], OwnConvention()) == wanted
                    clean = clean and (row is None or module.rows[called[0][:-1]] == row)
                    verdicts.append(Verdict(found[1], "clean" if clean else "faulty"))
        return verdicts


PLAIN = OwnConvention()
LENDS = OwnConvention(returns_borrowed=True)


class Trials(unittest.TestCase):
    def test_copies(self) -> None:
        module = prepared("int f(PyObject *x) { return look(x) + see(x); }\n", {"look": Row((), "new")})
        trials = [Trial("f", Convention("f", takes=(1,))), Trial("f", Convention("look", "borrowed"))]
        tried = with_copies(module, trials)
        self.assertEqual(tried.text.splitlines()[-2:], [
            "int f__0(PyObject *x){ return look(x) + see(x); }",
            "int f__1(PyObject *x){ return look__1(x) + see(x); }",
        ])
        self.assertEqual(tried.rows, {"look": Row((), "new"), "look__1": Row((), "borrowed")})
        self.assertEqual(tried.conventions, {"f__0": OwnConvention(takes=(1,)), "f__1": PLAIN})

    def test_copies_of_a_function_with_a_convention(self) -> None:
        module = prepared("int f(PyObject *x, PyObject *y) { return look(x); }\n", {"look": Row((), "new")})
        module.conventions["f"] = OwnConvention(takes=(2,))
        trials = [Trial("f", Convention("f", takes=(1,))), Trial("f", Convention("look", "borrowed"))]
        tried = with_copies(module, trials)
        self.assertEqual([tried.conventions[f"f__{n}"].takes for n in range(2)], [(1, 2), (2,)])

    def test_copy_that_calls_a_function(self) -> None:
        text = "int g(PyObject *x) { return 1; }\nint f(PyObject *x) { return g(x); }\nint h(void) { return 2; }\n"
        tried = with_copies(prepared(text), [Trial("f", Convention("f", takes=(1,)))])
        self.assertEqual(list(definitions_of(tried.text)), ["g", "f__0"])

    def test_each_trial_is_judged_where_another_has_no_verdict(self) -> None:
        def judge(module: Prepared) -> list[Verdict]:
            if "f__" in module.text and "g__" in module.text:
                raise TimeLimit("too long")
            return [Verdict(name, "clean") for name in re.findall(r"\b([fg]__\d+)\(", module.text)]

        trials = [Trial(name, Convention(name, takes=(1,))) for name in "ffgf"]
        module = prepared("void f(PyObject *x) { }\nvoid g(PyObject *x) { }\n")
        self.assertEqual(clean_trials(module, trials, judge), set(trials))


class Finding(unittest.TestCase):
    def test_own_promises(self) -> None:
        wanted = {
            "peek": LENDS,
            "drop": OwnConvention(takes=(1,)),
            "swap": OwnConvention(True, (1,)),
            "leak": None,
            "size": PLAIN,
        }
        found = find_conventions([prepared(MODULE)], StandIn(wanted))
        self.assertEqual(
            found,
            [Convention("drop", takes=(1,)), Convention("peek", "borrowed"), Convention("swap", "borrowed", (1,))],
        )

    def test_numbers_are_those_of_the_source(self) -> None:
        module = prepared("void drop(PyObject *x, int n, PyObject *y) { Py_XDECREF(y); }\n")
        module.parameters["drop"] = (2, 3, 5)
        standing = StandIn({"drop": OwnConvention(takes=(3,))})
        found = find_conventions([module], standing)
        self.assertEqual(found, [Convention("drop", takes=(5,))])
        self.assertEqual(variant(module, {"drop": found[0]}).conventions, {"drop": OwnConvention(takes=(3,))})

    def test_three_promises_together(self) -> None:
        text = "void eat(PyObject *a, PyObject *b, PyObject *c) { Py_XDECREF(a); Py_XDECREF(b); Py_XDECREF(c); }\n"
        wanted = {"eat": OwnConvention(takes=(1, 2, 3))}
        self.assertEqual(find_conventions([prepared(text)], StandIn(wanted)), [Convention("eat", takes=(1, 2, 3))])

    def test_texts_that_the_program_does_not_judge(self) -> None:
        standing = StandIn({"peek": LENDS, "drop": OwnConvention(takes=(1,))})

        def judge_most(module: Prepared) -> list[Verdict]:
            """Verdicts but on one variant."""
            if LENDS in module.conventions.values():
                raise TimeLimit("too long")
            return standing(module)

        self.assertEqual(find_conventions([prepared(MODULE)], judge_most), [Convention("drop", takes=(1,))])

    def test_declared_functions_are_left_alone(self) -> None:
        known = {"peek": Convention("peek", takes=(1,))}
        self.assertEqual(find_conventions([prepared(MODULE)], StandIn({"peek": LENDS}), known), [])

    def calling(self, row: Row) -> Prepared:
        """A module with two functions that call one which is known by this row of its second parameter."""
        text = "void f(PyObject *x) { Py_INCREF(x); steal(1, x); }\nvoid g(PyObject *x) { steal(2, x); }\n"
        module = prepared(text, {"steal": row, "pungi_any": Row((), "void")})
        module.row_sources["steal"] = RowSource("steal", (2,))
        return module

    def test_promise_of_a_call(self) -> None:
        plain = Row(("object",), "void")
        standing = StandIn({"f": PLAIN}, {"f": ("steal", Row(plain.params, "void", (1,)))})
        self.assertEqual(find_conventions([self.calling(plain)], standing), [Convention("steal", takes=(2,))])

    def test_promise_of_a_call_that_makes_another_function_faulty(self) -> None:
        plain = Row(("object",), "void")
        rows = {"f": ("steal", Row(plain.params, "void", (1,))), "g": ("steal", plain)}
        self.assertEqual(find_conventions([self.calling(plain)], StandIn(dict.fromkeys("fg", PLAIN), rows)), [])

    def test_parameters_that_the_preparation_does_not_number(self) -> None:
        module = self.calling(Row(("object",), "void"))
        module.row_sources.clear()
        standing = StandIn({"f": PLAIN}, {"f": ("steal", Row(("object",), "void", (1,)))})
        self.assertEqual(find_conventions([module], standing), [])

    def test_rows_of_one_function(self) -> None:
        text = "void f(PyObject *x) { steal(x); }\nvoid g(PyObject *x) { steal_2(NULL, x); }\n"
        module = prepared(text, {"steal": Row(("object",), "void"), "steal_2": Row(("object?", "object"), "void")})
        module.row_sources |= {"steal": RowSource("steal", (2,)), "steal_2": RowSource("steal", (1, 2))}
        rows = {
            "f": ("steal", Row(("object",), "void", (1,))),
            "g": ("steal_2", Row(("object?", "object"), "void", (2,))),
        }
        self.assertEqual(
            find_conventions([module], StandIn(dict.fromkeys("fg", PLAIN), rows)), [Convention("steal", takes=(2,))]
        )

    def test_second_round_over_a_package(self) -> None:
        first = prepared("void use(PyObject *x) { lend(x); }\n", {"lend": Row(("object",), "new")})
        second = prepared("PyObject *lend(PyObject *x) { return x; }\n")
        standing = StandIn({"use": PLAIN, "lend": LENDS}, {"use": ("lend", Row(("object",), "borrowed"))})
        self.assertEqual(find_conventions([first, second], standing), [Convention("lend", "borrowed")])


class WithTheProgram(ProgramCase):
    def judge(self, module: Prepared) -> list[Verdict]:
        """What the program says."""
        configuration = write_configuration(module.rows, module.conventions)
        return judge(module.text, configuration.text, program=self.program)

    def test_own_promises(self) -> None:
        found = find_conventions([prepared(MODULE)], self.judge)
        self.assertEqual(
            found,
            [
                Convention("drop", takes=(1,)),
                Convention("item", "borrowed"),
                Convention("none", "borrowed"),
                Convention("peek", "borrowed"),
                Convention("swap", "borrowed", (1,)),
            ],
        )

    def test_package(self) -> None:
        texts = {
            "calls.c": """PyObject *lend(PyObject *list); void eat(PyObject *one);
                int seen(PyObject *list) { PyObject *x = lend(list); return x != NULL; }
                int fed(PyObject *list) { PyObject *x = PyList_New(0); if (!x) return -1; eat(x); return 0; }
                int fine(PyObject *list) { PyObject *x = PyList_New(0); if (!x) return -1; Py_DECREF(x); return 0; }""",
            "defines.c": """PyObject *lend(PyObject *list) { return PyList_GetItem(list, 0); }
                void eat(PyObject *one) { Py_DECREF(one); }
                int lost(PyObject *one) { Py_INCREF(one); return 0; }""",
        }
        with tempfile.TemporaryDirectory(prefix="pungi-test-") as folder:
            for name, text in texts.items():
                Path(folder, name).write_text(HEAD + text, encoding="utf-8")
            sources = [Source(str(Path(folder, name)), ()) for name in texts]
            judged, found = judge_package(sources, Settings(program=self.program), 2)
            reports = [report_of(source, one) for source, one in zip(sources, judged, strict=True)]
        words = {f.function: f.word for report in reports for f in report.findings}
        self.assertEqual(set(found), {Convention("lend", "borrowed"), Convention("eat", takes=(1,))})
        convention = dict.fromkeys(("seen", "fed", "lend", "eat"), Word.CONVENTION)
        self.assertEqual(words, {**convention, "fine": Word.CLEAN, "lost": Word.FAULT})

    def test_promise_of_a_call(self) -> None:
        text = "int f(PyObject *x) { PyObject *y = look_up(x); if (y == NULL) return -1; return 0; }\n"
        module = prepared(text, {"look_up": Row(("object",), "new")})
        self.assertEqual([verdict.word for verdict in self.judge(module)], ["faulty"])
        self.assertEqual(find_conventions([module], self.judge), [Convention("look_up", "borrowed")])


if __name__ == "__main__":
    unittest.main()
