#!/usr/bin/env python3
"""Compares the worked runs of crates/pungi_lower/proofs/Worked*.antt with what a C compiler's program computes.

Each run there stands below its function's text. Those that use integers alone and return are compiled, called with the
run's arguments, and must give the run's value. Runs that stop have no value in C, and are left out.

    python3 checks/worked_in_c.py [COMPILER ..]        `cc` where none is named
"""
import pathlib
import re
import subprocess
import sys
import tempfile

WORKED = pathlib.Path(__file__).parent.parent / "crates/pungi_lower/proofs"
RUN = re.compile(r"^run_\d+ : told \(last_run file_\d+ \d+ (\(.*\)) (\(.*\)) \d+\) ≡ gives \(Some \(value\.Int \((.*?)\)\)\) ")
NUMBER = re.compile(r"value\.Int \((pos|negsuc) (\d+)\)")
# C leaves these open: a quotient past its range (C11 6.5.5), and changes of one variable in no order (6.5).
OPEN_IN_C = [
    ("int f(int a, int b) { return a % b; }", [-(2**31), -1]),
    ("int f(int a) { return (a = 1) + (a = 2) * 10 + a; }", [5]),
    ("int f(int a) { a += a++; return a; }", [5]),
    ("int f(int a) { return a++ + a; }", [5]),
    ("int f(int a) { return a-- - --a; }", [5]),
]
ONLY_IN_PYTHON = re.compile(r"\bPy(?!_ssize_t)\w|\bchar\b|\bstruct\b|^\w+ \w+;", re.MULTILINE)


def number(sign, digits):
    """The number that `pos n` or `negsuc n` writes."""
    return int(digits) if sign == "pos" else -int(digits) - 1


def literal(value):
    """A number as C writes it. There is no literal for the least `long`."""
    return f"({value + 1}L - 1)" if value < 0 else f"{value}L"


def statements(path):
    """The lines of a file, each with the indented ones that go on with it."""
    return re.sub(r"\n +", " ", path.read_text(encoding="utf-8")).splitlines()


def worked_runs(path):
    """The text, the arguments and the value of each run that uses integers alone and returns."""
    text, named = [], False
    for line in statements(path):
        run = RUN.match(line)
        if line.startswith("-- "):
            text.append(line[3:])
            continue
        if re.match(r"(abbrev pub )?file_\d+ ", line) or (named and not line):
            named = True
            continue
        if run and not ONLY_IN_PYTHON.search("\n".join(text)) and "Object" not in run[1]:
            arguments = [number(*found) for found in NUMBER.findall(run[1])]
            if ("\n".join(text), arguments) not in OPEN_IN_C:
                yield "\n".join(text), arguments, number(*run[3].split())
        text, named = [], False


def program(runs):
    """A C program that prints the value of each run on a line of its own."""
    functions = [re.sub(r"\bf\(", f"f{i}(", text, count=1) for i, (text, _, _) in enumerate(runs)]
    calls = [f'printf("%ld\\n", (long)f{i}({", ".join(map(literal, arguments))}));' for i, (_, arguments, _) in enumerate(runs)]
    head = ["#include <stdio.h>", "typedef long Py_ssize_t;"]
    return "\n".join([*head, *functions, "int main(void) {", *calls, "return 0; }", ""])


def values_by(compiler, source, folder):
    """What the program prints, as this compiler builds it."""
    pathlib.Path(folder, "runs.c").write_text(source, encoding="utf-8")
    subprocess.run([compiler, "-w", "-o", "runs", "runs.c"], cwd=folder, check=True)
    printed = subprocess.run([f"{folder}/runs"], capture_output=True, text=True, check=True).stdout
    return [int(word) for word in printed.split()]


def main():
    runs = [run for path in sorted(WORKED.glob("Worked[JOS]*.antt")) for run in worked_runs(path)]
    status = 0
    for compiler in sys.argv[1:] or ["cc"]:
        with tempfile.TemporaryDirectory() as folder:
            values = values_by(compiler, program(runs), folder)
        others = [(text, wanted, value) for (text, _, wanted), value in zip(runs, values, strict=True) if wanted != value]
        print(f"{compiler}: {len(runs) - len(others)} of {len(runs)} runs agree")
        for text, wanted, value in others:
            print(f"  {value}, and the definition gives {wanted}: {text}")
            status = 1
    sys.exit(status)


main()
