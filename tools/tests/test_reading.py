"""Reading: what is left out of a text before it is parsed."""

from __future__ import annotations

import sys
import unittest
from pathlib import Path

sys.path.insert(0, str(Path(__file__).resolve().parent.parent))

from preparation_runs import body, prepared  # noqa: E402
from pungi_module.preparation.reading.bodies import without_numbers  # noqa: E402

TABLE = "static const short %s[] = {\n" + "  12, 0x1f, -3,\n" * 200 + "};\n"


class Reading(unittest.TestCase):
    """Long tables of numbers."""

    def test_lines_stay(self) -> None:
        text = TABLE % "table" + "int n;\n"
        self.assertEqual(without_numbers(text), "static const short table[] = {0}" + "\n" * 201 + ";\nint n;\n")

    def test_other_tables_stay(self) -> None:
        for text in ("static int few[] = { 1, 2, 3 };\n", TABLE.replace("-3", "SIZE"), TABLE.replace("-3", '"text"')):
            self.assertEqual(without_numbers(text), text)

    def test_function_after_a_table(self) -> None:
        source = TABLE % "table" + "PyObject *f(PyObject *a, int n) { return table[n] ? Py_NewRef(a) : NULL; }"
        found = prepared(source)
        self.assertEqual(found.functions[0].place.line, 205)
        self.assertIn("pungi_any_choice()", body(found, "f"))


if __name__ == "__main__":
    unittest.main()
