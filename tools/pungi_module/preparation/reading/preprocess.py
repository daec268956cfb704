"""The module's text after the C preprocessor: real headers, and the calls of the API left as calls."""

from __future__ import annotations

import functools
import re
import subprocess
import sysconfig
from dataclasses import dataclass, field
from pathlib import Path

DATA = Path(__file__).parent / "data"

#: Words of the GNU dialect that pycparser does not read.
DIALECT = [
    "-D__attribute__(x)=", "-D__attribute(x)=", "-D__extension__=", "-D__inline=inline", "-D__inline__=inline",
    "-D__restrict=", "-D__restrict__=", "-D__const=const", "-D__asm__(...)=", "-D__asm(...)=", "-D__volatile__=",
    "-D__signed__=signed", "-D__builtin_va_list=char *", "-D__builtin_offsetof(T,m)=0ul", "-D_Float128=double",
    "-D_Float64=double", "-D_Float32=float", "-D_Float64x=double", "-D_Float32x=double", "-D__int128=long long",
    "-D__thread=", "-D_Thread_local=", "-D_Noreturn=", "-D__typeof__(...)=int", "-D__alignof__(x)=8ul",
    "-D_Alignas(x)=",
    "-D_Atomic=", "-D__builtin_expect(a,b)=(a)", "-D_Static_assert(...)=", "-Dstatic_assert(...)=",
    "-D__builtin_types_compatible_p(...)=0", "-DNDEBUG", "-D_Complex=", "-U__SSE__", "-U__SSE2__",
]

#: What a module may define before it includes Python.h, and which changes what Python.h declares.
EARLY = re.compile(r"^[ \t]*#[ \t]*define[ \t]+(PY_SSIZE_T_CLEAN|Py_BUILD_CORE\w*|NEEDS_PY_IDENTIFIER|Py_LIMITED_API|"
                   r"_GNU_SOURCE)\b[ \t]*([^\n/]*)", re.M)

#: What Python's own headers say where a module of Python's own source is built without the flag that its build gives.
CORE_WANTED = "this header requires Py_BUILD_CORE define"
CORE = "-DPy_BUILD_CORE_MODULE=1"

MISSING = re.compile(r"fatal error: ([^:\n]+): No such file")

#: How many missing headers are replaced by empty ones before the preprocessor is left alone.
MISSING_LIMIT = 40


class NotRead(Exception):
    """The source cannot be preprocessed or parsed."""


@dataclass
class Preprocessed:
    """The text, with line markers, and what had to be passed over."""

    text: str
    notes: list[str] = field(default_factory=list)


def python_flags() -> list[str]:
    """The include paths of the running Python."""
    paths = sysconfig.get_paths()
    return ["-I" + paths["include"], "-I" + paths["include"] + "/internal"]


def early_definitions(source: str) -> list[str]:
    """Flags for the module's own definitions that must stand before Python.h."""
    return ["-D%s=%s" % (name, value.strip()) for name, value in EARLY.findall(source)]


@functools.lru_cache
def call_macros(flags: tuple[str, ...]) -> tuple[str, ...]:
    """The macros with parameters that Python.h defines under these flags."""
    command = ["gcc", "-E", "-dM", "-x", "c", "-", *flags]
    listing = subprocess.run(command, input=b"#include <Python.h>\n", capture_output=True, check=False)
    return tuple(re.findall(r"^#define (_?Py[A-Za-z_0-9]*)\(", listing.stdout.decode("latin-1"), re.M))


def write_calls(work: Path, flags: list[str]) -> None:
    """Writes the header that undefines the API's macros with parameters, but for those that take types."""
    kept = set((DATA / "kept_macros.txt").read_text().split())
    lines = ["#undef " + name for name in sorted(set(call_macros(tuple(flags))) - kept)]
    (work / "pungi_calls.h").write_text("\n".join(lines) + "\n")


def preprocess(path: str, flags: list[str], work: Path) -> Preprocessed:
    """Runs the preprocessor; a header that is missing is taken as empty, and noted."""
    stubs = work / "stubs"
    stubs.mkdir(parents=True, exist_ok=True)
    source = Path(path).read_text(encoding="latin-1")
    flags = early_definitions(source) + flags
    write_calls(work, flags)
    command = (["gcc", "-E", "-w"] + flags + ["-I", str(work), "-idirafter", str(stubs)] + DIALECT
               + ["-include", str(DATA / "pungi_shim.h"), path])
    notes: list[str] = []
    for _ in range(MISSING_LIMIT):
        run = subprocess.run(command, capture_output=True, check=False)
        errors = run.stderr.decode("latin-1")
        missing = MISSING.findall(errors)
        if CORE_WANTED in errors and CORE not in command:
            command.insert(3, CORE)
            continue
        if not missing:
            break
        for name in missing:
            notes.append("%s is not there, and is taken as empty" % name)
            stub = stubs / name
            stub.parent.mkdir(parents=True, exist_ok=True)
            stub.write_text("")
    notes += ["preprocessor: " + line for line in re.findall(r"error: .*", errors)[:3]]
    if not run.stdout:
        raise NotRead(errors.splitlines()[0] if errors else "the preprocessor wrote nothing")
    return Preprocessed(run.stdout.decode("latin-1"), notes)
