"""Tests of the command: the files it looks at, its output, its exit status. A script stands for the program."""

from __future__ import annotations

import json
import os
import subprocess
import sys
import tempfile
import unittest
from pathlib import Path

TOOLS = Path(__file__).resolve().parent.parent
sys.path.insert(0, str(TOOLS))

import running  # noqa: E402
from pungi_module.compilation import BadDatabase, from_database  # noqa: E402

CLEAN = "#include <Python.h>\nPyObject *same(PyObject *x) { Py_INCREF(x); return x; }\n"
BAD = CLEAN + "PyObject *bad_same(PyObject *x) { Py_INCREF(x); Py_INCREF(x); return x; }\n"
LENT = CLEAN + "PyObject *lent_same(PyObject *x) { return x; }\n"
NONE = CLEAN + "PyObject *none_same(PyObject *x) { return Py_None; }\n"
MANY = CLEAN + "PyObject *many_same(PyObject *x) { Py_INCREF(x); return x; }\n"


@unittest.skipIf(running.missing(), running.missing())
class Command(unittest.TestCase):
    """The command over files in a folder of their own."""

    def setUp(self) -> None:
        folder = tempfile.TemporaryDirectory()
        self.addCleanup(folder.cleanup)
        self.folder = Path(folder.name)

    def call(self, *words: str, **files: str) -> tuple[int, str]:
        """The status and output of a call beside files with these texts."""
        for name, text in files.items():
            (self.folder / f"{name}.c").write_text(text, encoding="utf-8")
        done = subprocess.run(
            [sys.executable, str(TOOLS / "pungi-module"), *words], cwd=self.folder, capture_output=True, text=True,
            env={**os.environ, "PUNGI": str(TOOLS / "tests" / "fake_pungi.py")}, check=False,
        )
        return done.returncode, done.stdout + done.stderr

    def test_clean_file(self) -> None:
        self.assertEqual(self.call("one.c", one=CLEAN), (0, "one.c: 1 clean\n"))

    def test_fault(self) -> None:
        status, output = self.call("one.c", one=BAD)
        self.assertEqual(status, 1)
        self.assertIn("one.c:3:", output)
        self.assertIn("fault: bad_same leaks 1 reference to x (an argument)", output)
        self.assertTrue(output.endswith("one.c: 1 fault, 1 clean\n"))

    def test_not_judged(self) -> None:
        status, output = self.call("one.c", one=MANY)
        self.assertEqual(status, 2)
        self.assertIn("open: many_same: there are more ways", output)

    def test_several_files_and_formats(self) -> None:
        status, output = self.call("one.c", "two.c", "--format", "json", one=CLEAN, two=MANY)
        self.assertEqual((status, len(json.loads(output)["modules"])), (2, 2))
        self.assertIn("::notice file=two.c,line=3", self.call("two.c", "--format", "github", two=MANY)[1])

    def test_only(self) -> None:
        self.assertEqual(self.call("one.c", "--only", "same", one=BAD), (0, "one.c: 1 clean\n"))

    def test_flags_of_the_compiler(self) -> None:
        text = "#include <Python.h>\n#ifdef OTHER\n" + BAD + "#else\n" + CLEAN + "#endif\n"
        self.assertEqual(self.call("one.c", one=text)[0], 0)
        self.assertEqual(self.call("one.c", "--", "-DOTHER", one=text)[0], 1)

    def test_usage(self) -> None:
        for words in ([], ["--format", "xml", "one.c"], ["one.c", "--assume", "nothing.toml"]):
            self.assertEqual(self.call(*words, one=CLEAN)[0], 3, words)

    def test_not_read_and_not_parsed(self) -> None:
        self.assertEqual(self.call("none.c")[0], 4)
        self.assertEqual(self.call("one.c", one="int f( {\n")[0], 6)

    def test_prepared_text(self) -> None:
        status, output = self.call("one.c", "--show", "prepared", one=CLEAN)
        self.assertEqual(status, 0)
        self.assertIn("Py_INCREF(x)", output)

    def test_convention(self) -> None:
        status, output = self.call("one.c", one=LENT)
        self.assertEqual(status, 2)
        self.assertIn('        [convention.lent_same]\n        returns = "borrowed"\n', output)
        (self.folder / "known.toml").write_text('[convention.lent_same]\nreturns = "borrowed"\n', encoding="utf-8")
        words = ("one.c", "--assume", "known.toml")
        self.assertEqual(self.call(*words), (0, "one.c: 2 clean\n"))
        prepared = self.call(*words, "--show", "prepared")[1]
        self.assertIn("lent_same(PyObject *x) { return x; }", prepared)
        self.assertTrue(prepared.endswith('/*\n[convention.lent_same]\nreturns = "borrowed"\n*/\n'), prepared)

    def test_version_of_python(self) -> None:
        for words, status in (([], 2), (["--python", "3.11"], 2), (["--python", "3.12"], 0), (["--python", "3.13"], 3)):
            self.assertEqual(self.call("one.c", *words, one=NONE)[0], status, words)
        self.assertIn('/*\nprofile = "3.12"\n', self.call("one.c", "--python", "3.12", "--show", "prepared")[1])
        self.assertNotIn("profile", self.call("one.c", "--show", "prepared")[1])

    def test_package(self) -> None:
        status, output = self.call("--package", ".", one=CLEAN, two=CLEAN)
        self.assertEqual((status, output), (0, "one.c: 1 clean\ntwo.c: 1 clean\n"))


class Databases(unittest.TestCase):
    """Reading compile_commands.json."""

    def database(self, text: str) -> str:
        """The path of a file with this text."""
        folder = tempfile.TemporaryDirectory()
        self.addCleanup(folder.cleanup)
        path = Path(folder.name, "compile_commands.json")
        path.write_text(text, encoding="utf-8")
        return str(path)

    def test_flags(self) -> None:
        command = "gcc -O2 -DX=1 -D Y -Iinc -isystem /usr/q -c a.c -o a.o"
        of_c = {"directory": "/x", "file": "a.c", "command": command}
        entries = [of_c, {"directory": "/x", "file": "b.cc", "arguments": ["g++"]}]
        sources = from_database(self.database(json.dumps(entries)), [])
        self.assertEqual([s.path for s in sources], ["/x/a.c"])
        self.assertEqual(sources[0].flags, ("-D", "X=1", "-D", "Y", "-I", "/x/inc", "-isystem", "/usr/q"))

    def test_no_database(self) -> None:
        for text in ("{", "[1]", '[{"directory": "/x"}]'):
            with self.assertRaises(BadDatabase):
                from_database(self.database(text), [])


if __name__ == "__main__":
    unittest.main()
