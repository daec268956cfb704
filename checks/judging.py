#!/usr/bin/env python3
"""judging.py [PROGRAM]: times whole runs of the program, out/pungi of the crate pungi unless it is named, beside clang on the
same files: a thousand functions, 3,131 ordinary functions over integers (644 KB), functions with
16,384 traces, one with 10,496 traces and twenty comparisons of numbers, and functions of 4,000 nodes that are nested 200 deep. It prints the least milliseconds of some runs of each, and
the most memory that the program took, in MB. clang gets declarations of the calls in front of each file."""
import os
import subprocess
import sys
import tempfile
import time

HERE = os.path.dirname(os.path.abspath(__file__))

DECLARED = """
#define NULL ((void *)0)
#define PyObject_HEAD long count; void *type;
typedef struct object PyObject;
typedef long Py_ssize_t;
void Py_INCREF(void *), Py_DECREF(void *), Py_XDECREF(void *);
PyObject *PyList_New(Py_ssize_t);
int PyList_SetItem(PyObject *, Py_ssize_t, PyObject *), PyList_Append(PyObject *, PyObject *);
extern PyObject *Py_None;
"""

FOUR = """int put%d(PyObject *l, PyObject *x) { Py_INCREF(x); if (PyList_SetItem(l, 0, x) < 0) { return -1; } return 0; }
PyObject *make%d(PyObject *x) { PyObject *a = PyList_New(0); PyObject *b = NULL; if (a == NULL) goto fail; b = PyList_New(0); if (b == NULL) goto fail; if (PyList_Append(a, b) < 0) goto fail; Py_DECREF(b); return a; fail: Py_XDECREF(a); Py_XDECREF(b); return NULL; }
void set%d(Box *self, PyObject *x) { PyObject *old = self->first; Py_INCREF(x); self->first = x; Py_XDECREF(old); }
PyObject *get%d(PyObject *self, PyObject *args) { return Py_None; }
"""


ORDINARY = """static int step%d(int value, int low, int high)
{
    int sum = value;
    while (sum < low) {
        sum += high;
    }
    if (sum > high || sum == 0) {
        return low;
    }
    return sum * 2;
}
"""


def ordinary(count):
    return "".join(ORDINARY % i for i in range(count))


def thousand():
    functions = (FOUR % (i, i, i, i) for i in range(250))
    return "typedef struct { PyObject_HEAD PyObject *first; } Box;\n" + "".join(functions)


def asking(count, between):
    """A function that asks of each of so many arguments whether it is NULL, with so many statements between two questions."""
    parameters = ", ".join(f"PyObject *p{k}" for k in range(count))
    body = "".join(f"if (p{k}) {{ Py_INCREF(p{k}); a = p{k}; Py_DECREF(a); }}\n" + "a = NULL;\n" * between for k in range(count))
    return f"void f({parameters}) {{\nPyObject *a = NULL;\n{body}}}\n"


def comparing(count, comparisons):
    """A function that compares a number so often, and asks of so many arguments whether they are NULL between the comparisons."""
    parameters = ", ".join(f"PyObject *p{k}" for k in range(count))
    asks = [f"if (p{k}) {{ Py_INCREF(p{k}); a = p{k}; Py_DECREF(a); }}\n" for k in range(count)]
    asks += [""] * (comparisons - count)
    body = "".join(ask + f"if (n > {3 * k}) {{ a = NULL; }}\n" for k, ask in enumerate(asks))
    return f"void f(int n, {parameters}) {{\nPyObject *a = NULL;\n{body}}}\n"


def nested(count):
    body = "while (x)\n" * 200 + "{\n" + "x = y;\n" * 915 + "}\n"
    return "".join(f"void f{i}(PyObject *x, PyObject *y) {{\n{body}}}\n" for i in range(count))


def least(command, turns):
    """The least milliseconds of so many runs of a command, and the most memory of one of them in MB."""
    best, most = None, 0
    for _ in range(turns):
        begun = time.perf_counter()
        with subprocess.Popen(command, stdout=subprocess.DEVNULL, stderr=subprocess.DEVNULL) as run:
            _, _, used = os.wait4(run.pid, 0)
            run.returncode = 0
        took = 1000 * (time.perf_counter() - begun)
        best = took if best is None else min(best, took)
        most = max(most, used.ru_maxrss / 1000)
    return best, most


def main():
    program = os.path.abspath(sys.argv[1]) if len(sys.argv) > 1 else os.path.join(HERE, "..", "crates", "pungi", "out", "pungi")
    files = [
        ("a thousand functions", thousand()),
        ("3,131 ordinary functions", ordinary(3131)),
        ("16,384 traces", asking(14, 0)),
        ("16,384 traces of a long function", asking(14, 20)),
        ("10,496 traces and twenty comparisons", comparing(8, 20)),
        ("50 functions, nested 200 deep", nested(50)),
    ]
    with tempfile.TemporaryDirectory() as room:
        for name, text in files:
            with open(f"{room}/x.c", "w") as it:
                it.write(text)
            with open(f"{room}/declared.c", "w") as it:
                it.write(DECLARED + text)
            pungi, memory = least([program, f"{room}/x.c"], 10)
            clang, _ = least(["clang", "-fsyntax-only", "-w", "-fbracket-depth=1024", f"{room}/declared.c"], 10)
            print(f"{name}: pungi {pungi:.1f} ms and {memory:.0f} MB, clang {clang:.1f} ms")


if __name__ == "__main__":
    main()
