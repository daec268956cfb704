#!/usr/bin/env python3
"""Stands for the program in tests of the command: what it reports of a function is in the function's name.

`bad_..` leaks a reference to its first argument, `lent_..` returns it without one of its own, `none_..` returns None
so, `many_..` has too many ways, `odd_..` is refused, others are clean.
"""

import sys
import tomllib
from pathlib import Path

sys.path.insert(0, str(Path(__file__).resolve().parent.parent))

from pungi_module.replay.definitions import definitions_of, place_at  # noqa: E402


def block(text: str, name: str, configuration: dict) -> str:
    """What is reported of a function."""
    definition = definitions_of(text)[name]
    line, column = place_at(text, max(text.rfind("return", definition.body, definition.end), definition.body))
    run = "  objects 25\n  argument object 24\n"
    is_lent = configuration.get("convention", {}).get(name, {}).get("returns") == "borrowed"
    if name.startswith("bad_"):
        return f"faulty {name} {line}:{column} object 24 change 2 escaped 1\n{run}"
    if name.startswith("lent_") and not is_lent:
        return f"faulty {name} {line}:{column} object 24 change 0 escaped 1\n{run}"
    if name.startswith("none_") and not is_lent and configuration.get("profile") != "3.12":
        return f"faulty {name} {line}:{column} object 0 change 0 escaped 1\n{run}"
    if name.startswith("many_"):
        return f"unknown {name} traces\n"
    return f"refused {name} {line}:{column} N2\n" if name.startswith("odd_") else f"clean {name}\n"


def main() -> int:
    """Prints the report."""
    text, configuration = Path(sys.argv[-1]).read_text(encoding="utf-8"), {}
    if "--config" in sys.argv:
        configuration = tomllib.loads(Path(sys.argv[sys.argv.index("--config") + 1]).read_text(encoding="utf-8"))
    blocks = [block(text, name, configuration) for name in definitions_of(text)]
    sys.stdout.write("".join(blocks))
    words = {b.split(" ")[0] for b in blocks}
    return 1 if "faulty" in words else 2 if words - {"clean"} else 0


if __name__ == "__main__":
    sys.exit(main())
