#!/usr/bin/env python3
"""analyzers.py [PROGRAM]: times the program, out/pungi of the crate pungi unless it is named, on the texts of trials of 1,000 and
2,000 functions, beside `clang --analyze` and cppcheck on the same files. It prints the least processor time of some runs of
each, in milliseconds, and how many times as long the others take; and how much longer the larger text takes."""
import os
import subprocess
import sys
import sysconfig
import tempfile

from judging import HERE

KINDS = {
    1: "PyObject *fK(PyObject *self, PyObject *args) { return PyLong_FromLong(K); }",
    2: "PyObject *fK(PyObject *self, PyObject *x) { Py_INCREF(x); return PyLong_FromLong(K); }",
    3: "PyObject *fK(PyObject *self, PyObject *args) { Py_ssize_t i; PyObject *a = PyList_New(K), *b; "
    "if (!a) return NULL; for (i = 0; i < K; i++) { b = PyLong_FromLong(i); "
    "if (!b) { Py_DECREF(a); return NULL; } PyList_SET_ITEM(a, i, b); } return a; }",
    4: "void fK(PyObject *x, int n) { int i; for (i = 0; i < n; i++) Py_INCREF(x); for (i = 0; i < n; i++) Py_DECREF(x); }",
    0: "PyObject *fK(PyTypeObject *t) { return t->tp_alloc(t, 0); }",
}


def trial(count):
    """The text of a trial, as crates/pungi_trial/specs states it."""
    lines = [KINDS[k % 5].replace("K", str(k)) for k in range(1, count + 1)]
    return "#include <Python.h>\n" + "\n".join(lines) + "\n"


def least(command, turns):
    """The least processor time of so many runs of a command, in milliseconds."""
    best = None
    for _ in range(turns):
        with subprocess.Popen(command, stdout=subprocess.DEVNULL, stderr=subprocess.DEVNULL) as run:
            _, _, used = os.wait4(run.pid, 0)
            run.returncode = 0
        took = 1000 * (used.ru_utime + used.ru_stime)
        best = took if best is None else min(best, took)
    return best


def main():
    program = os.path.abspath(sys.argv[1]) if len(sys.argv) > 1 else os.path.join(HERE, "..", "crates", "pungi", "out", "pungi")
    headers = sysconfig.get_paths()["include"]
    took = {}
    with tempfile.TemporaryDirectory() as room:
        for count in (1000, 2000):
            file = f"{room}/trial.c"
            with open(file, "w") as it:
                it.write(trial(count))
            took[count] = least([program, file], 5)
            clang = least(["clang", "--analyze", "-w", "-I", headers, "-o", f"{room}/out", file], 2)
            cppcheck = least(["cppcheck", "--quiet", "-I", headers, file], 2)
            print(
                f"a trial of {count} functions: pungi {took[count]:.0f} ms, clang --analyze {clang:.0f} ms "
                f"({clang / took[count]:.1f} times), cppcheck {cppcheck:.0f} ms ({cppcheck / took[count]:.1f} times)"
            )
    print(f"2,000 functions take {took[2000] / took[1000]:.2f} times as long as 1,000")


if __name__ == "__main__":
    main()
