"""Calls the functions of an extension that `thunks.py` wrote, and looks whether any count changed.

Run as a script with the file of the extension, it reads lists of pairs of a number of a call and the text of its
arguments, tries the calls of each list many times in a process of its own, and prints a line for each pair: whether
the call succeeded, a tab and what was wrong.
"""

from __future__ import annotations

import gc
import importlib.util
import json
import os
import sys
import types
from collections.abc import Callable

#: The numbers of calls in the rounds. A later round follows only where counts changed: the first ones fill caches.
ROUNDS = (40, 200, 1000)


class Marker:
    """A class whose object stands for any object."""

    def __init__(self, *args: object, **keywords: object) -> None:
        self.args = args

    def method(self, *args: object) -> object:
        """Returns the marker."""
        return X


class Opaque:
    """A class whose objects refuse what can be refused."""

    __slots__ = ()

    def refuse(self, *args: object) -> None:
        """Raises an exception."""
        raise ValueError

    __hash__ = __repr__ = __str__ = __bool__ = __eq__ = __lt__ = __len__ = __iter__ = __getitem__ = refuse
    __setitem__ = __delitem__ = __contains__ = __call__ = __add__ = __getattr__ = __setattr__ = __dir__ = refuse


def function(*args: object) -> object:
    """Returns the marker."""
    return X


def generator() -> object:
    """Yields the marker."""
    yield X


def defaults(argument: object = None) -> object:
    """A function with a default and a closure."""
    return lambda: argument


X = Marker()
BAD = Opaque()
E = KeyError(X)
CLOSURE = defaults()
#: What stands for NULL as an argument.
NULL = ...
KEPT = {
    "X": X, "Marker": Marker, "None": None, "True": True, "False": False, "E": E, "BAD": BAD, "method": Marker.method,
}  # fmt: skip
NAMES = {
    **KEPT, "NULL": NULL, "function": function, "generator": generator, "defaults": defaults, "CLOSURE": CLOSURE,
    "types": types, "sys": sys,
}  # fmt: skip


def reachable() -> dict[int, object]:
    """The objects that stay as long as the process, by their addresses."""
    tracked = gc.get_objects()
    code = [getattr(Marker.method.__code__, name) for name in dir(types.CodeType) if name.startswith("co_")]
    return {id(value): value for value in [*tracked, *gc.get_referents(*tracked), *code]}


def constants(code: types.CodeType) -> list[object]:
    """The constants in code, and in the code in it."""
    inner = [value for value in code.co_consts if isinstance(value, types.CodeType)]
    return [*code.co_consts, *(value for each in inner for value in constants(each))]


def staying(call: Callable[..., object], make: types.FunctionType, objects: dict[int, object]) -> dict[str, object]:
    """The objects whose counts show what a call does: of the arguments and the result those that stay."""
    found = dict(KEPT)
    for number, (one, other) in enumerate(zip(make(), make(), strict=True), 1):
        if one is other:
            found[f"argument {number}"] = one
    for number, value in enumerate(constants(make.__code__), 1):
        found[f"constant {number}"] = value
    result = call(*make())
    if isinstance(result, int) and result in objects:
        found["result"] = objects[result]
    return found


def difference(call: Callable[..., object], text: str, objects: dict[int, object]) -> str:
    """Whether calls with these arguments succeed, and after a tab what they change, if anything."""
    make = eval(f"lambda: {text}", NAMES)  # noqa: S307 - the table is ours
    watched = staying(call, make, objects)
    for _ in range(5):
        outcome = call(*make())
    for times in ROUNDS:
        wrong = changes(call, make, watched, times)
        if not wrong:
            break
    said = f"in {times} calls with {text}: {', '.join(wrong)}" if wrong else ""
    return f"{'failed' if outcome is None or outcome == -1 else 'succeeded'}\t{said}"


def changes(call: Callable[..., object], make: types.FunctionType, watched: dict[str, object], times: int) -> list[str]:
    """What so many calls change, about once each: counts of objects that stay, and blocks of memory."""
    gc.collect()
    before, blocks = [sys.getrefcount(value) for value in watched.values()], sys.getallocatedblocks()
    for _ in range(times):
        call(*make())
    gc.collect()
    after, grown = [sys.getrefcount(value) for value in watched.values()], sys.getallocatedblocks() - blocks
    wrong = [
        f"{name} {now - then:+}"
        for name, then, now in zip(watched, before, after, strict=True)
        if abs(now - then) * 2 > times
    ]
    return wrong + ([f"memory {grown:+}"] if grown * 2 > times else [])


def in_child(trials: list[tuple[Callable[..., object], str]], objects: dict[int, object]) -> list[str]:
    """What each of some calls changes, found in a process of its own, which may crash."""
    reading, writing = os.pipe()
    child = os.fork()
    if child == 0:
        for call, text in trials:
            try:
                said = difference(call, text, objects)
            except BaseException as error:  # noqa: BLE001 - whatever it is, it is reported
                said = f"failed\twith {text}: {type(error).__name__}: {error}"
            os.write(writing, (said + "\n").encode())
        os._exit(0)
    os.close(writing)
    with os.fdopen(reading, "rb") as pipe:
        said = pipe.read().decode().splitlines()
    _, status = os.waitpid(child, 0)
    if status == 0:
        return said
    if len(trials) > 1:
        return [line for trial in trials for line in in_child([trial], objects)]
    return [f"failed\twith {trials[0][1]}: the process ended with signal {os.WTERMSIG(status)}"]


def main() -> None:
    """Tries the calls that standard input names."""
    spec = importlib.util.spec_from_file_location("pungi_rows", sys.argv[1])
    assert spec is not None and spec.loader is not None
    extension = importlib.util.module_from_spec(spec)
    spec.loader.exec_module(extension)
    gc.disable()
    objects = reachable()
    gc.freeze()
    for together in json.load(sys.stdin):
        trials = [(getattr(extension, f"call_{number}"), text) for number, text in together]
        print("\n".join(in_child(trials, objects)), flush=True)


if __name__ == "__main__":
    main()
