"""The documents name what the code has."""

from __future__ import annotations

import sys
import unittest
from pathlib import Path

TOOLS = Path(__file__).resolve().parent.parent
sys.path.insert(0, str(TOOLS))

from pungi_module.preparation.assumptions import ASSUMPTIONS  # noqa: E402
from pungi_module.command import parser  # noqa: E402
from pungi_module.findings import Word  # noqa: E402


class Documents(unittest.TestCase):
    """docs/PREPARATION.md and tools/README.md."""

    def test_assumptions(self) -> None:
        page = (TOOLS.parent / "docs" / "PREPARATION.md").read_text(encoding="utf-8")
        for name, kind in ASSUMPTIONS.items():
            weak, hides = ("yes" if is_so else "no" for is_so in (kind.is_weak, kind.hides_faults))
            self.assertIn(f"| {name} | {kind.meaning} | {weak} | {hides} |", page)
            self.assertGreaterEqual(page.count(f"`{name}`"), 1, name)

    def test_words_and_options(self) -> None:
        page = (TOOLS / "README.md").read_text(encoding="utf-8")
        for word in Word:
            self.assertIn(f"| `{word.value}` |", page)
        for action in parser()._actions:
            if action.dest not in ("help", "files"):
                self.assertTrue(any(option in page for option in action.option_strings), action)


if __name__ == "__main__":
    unittest.main()
