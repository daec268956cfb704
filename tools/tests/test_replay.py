"""Tests of replayed runs: the definitions of a text, the ways through it, and what happens to counts."""

from __future__ import annotations

import sys
import unittest
from pathlib import Path

sys.path.insert(0, str(Path(__file__).resolve().parent.parent))

from pungi_module.model import OwnConvention, Row, Run, Step, Value  # noqa: E402
from pungi_module.replay import Deed, replayed  # noqa: E402
from pungi_module.replay.definitions import definitions_of, with_only  # noqa: E402
from pungi_module.slot_words import source_words  # noqa: E402

ROWS = {
    "PyList_New": Row(("size",), "new"),
    "PyList_Append": Row(("object", "object"), "status"),
    "PyTuple_SetItem": Row(("object", "size", "object"), "status", (3,)),
    "PyModule_AddObject": Row(("object", "text", "object"), "status", (), (3,)),
    "PyObject_Size": Row(("object",), "size"),
}
OBJECT, INT = (lambda number: Value("object", number)), (lambda number: Value("int", number))


def deeds(text: str, run: Run, convention: OwnConvention = OwnConvention()) -> list[tuple[Deed, int]] | None:
    """What happens to the object of a run of the function `f`, where it has this convention."""
    followed = replayed(text, ROWS, "f", run, convention)
    return [(event.deed, event.owned) for event in followed.account.events] if followed else None


class Replayed(unittest.TestCase):
    """Runs that are followed."""

    def run_of(self, steps: list[Step], change: int, escaped: int, number: int = 25) -> Run:
        """A run with one argument, object 24."""
        return Run(9, 9, number, change, escaped, 26, (OBJECT(24),), tuple(steps))

    def test_taken_over(self) -> None:
        text = "PyObject *f(PyObject *t) {\n PyObject *x = PyList_New(0);\n PyTuple_SetItem(t, 0, x);\n return x;\n}\n"
        run = self.run_of([Step(2, 16, OBJECT(25)), Step(3, 2, INT(-1))], 1, 2)
        self.assertEqual(deeds(text, run), [(Deed.NEW, 1), (Deed.TAKEN, 0), (Deed.FAILED, 0), (Deed.RETURNED, -1)])

    def test_taken_over_on_success_alone(self) -> None:
        text = "int f(PyObject *m) {\n return PyModule_AddObject(m, \"x\", PyList_New(0));\n}\n"
        place = text.split("\n")[1]
        steps = [Step(2, place.index("PyList") + 1, OBJECT(25)), Step(2, place.index("PyModule") + 1, INT(-1))]
        self.assertEqual(deeds(text, self.run_of(steps, 1, 0)), [(Deed.NEW, 1), (Deed.FAILED, 1)])

    def test_loop_and_goto(self) -> None:
        text = """int f(PyObject *x) {
 Py_ssize_t i, n = PyObject_Size(x);
 for (i = 0; i < n; i++) { if (i == 1) continue; Py_INCREF(x); if (i == 2) goto end; }
 Py_INCREF(x);
end:
 switch (n) { case 1: break; case 3: Py_INCREF(x); default: Py_INCREF(x); break; }
 do { Py_INCREF(x); } while (0);
 return 0;
}
"""
        run = self.run_of([Step(2, 20, INT(3))], 5, 0, 24)
        self.assertEqual(deeds(text, run), [(Deed.MORE, n) for n in range(1, 6)])

    def test_slots(self) -> None:
        text = """typedef struct { PyObject_HEAD PyObject *a; } Box;
static PyObject *kept;
int f(Box *b) {
 kept = b->a;
 b->a = NULL;
 return 0;
}
"""
        run = Run(6, 2, 25, 0, 1, 26, (OBJECT(24),), (Step(4, 10, OBJECT(25)), Step(4, 2, OBJECT(25)), ))
        self.assertIsNone(deeds(text, run))
        run = Run(6, 2, 25, 0, 0, 26, (OBJECT(24),), (Step(4, 10, OBJECT(25)), Step(4, 2, Value("null"))))
        self.assertEqual([deed for deed, _ in deeds(text, run) or []], [Deed.READ, Deed.STORED, Deed.OVERWRITTEN])

    def test_call_of_a_function(self) -> None:
        text = "static PyObject *g(PyObject *y) {\n return Py_NewRef(y);\n}\nint f(PyObject *x) {\n g(x);\n return 0;\n}\n"
        self.assertEqual(deeds(text, self.run_of([], 1, 0, 24)), [(Deed.MORE, 1)])

    def test_result_that_is_lent(self) -> None:
        text = "PyObject *f(PyObject *x) {\n return Py_NewRef(x);\n}\n"
        run, lends = self.run_of([], 1, 0, 24), OwnConvention(returns_borrowed=True)
        self.assertEqual(deeds(text, run, lends), [(Deed.MORE, 1), (Deed.RETURNED, 1)])
        self.assertIsNone(deeds(text, run))

    def test_reference_of_a_parameter_that_is_taken_over(self) -> None:
        text = "PyObject *f(PyObject *x, PyObject *y) {\n return x;\n}\n"
        run = Run(2, 2, 24, 0, -1, 25, (OBJECT(24), OBJECT(24)), ())
        given = [(Deed.GIVEN, 1), (Deed.GIVEN, 2), (Deed.RETURNED, 1)]
        self.assertIsNone(deeds(text, run, OwnConvention(True, (1, 2))))
        self.assertEqual(deeds(text, run, OwnConvention(False, (1, 2))), given)
        other = Run(2, 2, 25, 0, -1, 26, (OBJECT(24), OBJECT(25)), ())
        self.assertEqual(deeds(text, other, OwnConvention(takes=(1, 2))), [(Deed.GIVEN, 1)])
        null = Run(2, 2, 24, 0, 1, 25, (OBJECT(24), Value("null")), ())
        self.assertEqual(deeds(text, null, OwnConvention(takes=(2,))), [(Deed.RETURNED, -1)])

    def test_another_run(self) -> None:
        text = "int f(PyObject *x) {\n Py_INCREF(x);\n return 0;\n}\n"
        self.assertIsNone(deeds(text, self.run_of([], 2, 0, 24)))
        self.assertIsNone(deeds(text, self.run_of([Step(2, 2, INT(0))], 1, 0, 24)))


class Words(unittest.TestCase):
    """What a slot is called."""

    def test_source_words(self) -> None:
        words = {"self->f_item": "self->item", "self->f_of->f_off": "self->of->off", "out->i0": "out[0]",
                 "b->in": "b->in", "kept": "kept"}
        self.assertEqual({slot: source_words(slot) for slot in words}, words)


class Definitions(unittest.TestCase):
    """The functions of a text."""

    TEXT = 'typedef struct { int x; } S;\nstatic int n = 3;\nstatic S t[] = { { 1 } };\nint f(void) { return "}"[0]; }\nint g(int a)\n{\n return f();\n}\n'

    def test_names(self) -> None:
        self.assertEqual(list(definitions_of(self.TEXT)), ["f", "g"])

    def test_parts(self) -> None:
        part = with_only(self.TEXT, {"f"})
        self.assertEqual((len(part), part.count("\n")), (len(self.TEXT), self.TEXT.count("\n")))
        self.assertEqual(list(definitions_of(part)), ["f"])
        self.assertIn("int g(int a)\n;", part)


if __name__ == "__main__":
    unittest.main()
