"""The steps beyond a function's text on which its verdict rests, by name."""

from __future__ import annotations

from dataclasses import dataclass


@dataclass(frozen=True)
class AssumptionKind:
    """What an assumption says, whether a fault that rests on it may be none, and whether it can hide a fault."""

    meaning: str
    is_weak: bool
    hides_faults: bool


ASSUMPTIONS: dict[str, AssumptionKind] = {
    "default row": AssumptionKind(
        "A function that is only declared returns a new reference or NULL, or any value, and takes nothing over.",
        False, True),
    "default row for a function of the file": AssumptionKind(
        "A function of the file that could not be prepared returns a new reference or NULL, or any value, and takes "
        "nothing over.", True, True),
    "callee as a row": AssumptionKind(
        "A function of the file does as its own verdict `clean` says: it returns a new reference or NULL, or any "
        "value, and takes nothing over.", False, False),
    "callee with effects as a row": AssumptionKind(
        "A function of the file that stores objects into fields or globals stores nothing that its caller reads later.",
        True, True),
    "call through a pointer": AssumptionKind(
        "A function that is called through a pointer returns a new reference or NULL, or any value, and takes nothing "
        "over.", True, True),
    "declared": AssumptionKind(
        "The author says what the function returns and takes over.", False, True),
    "output guessed": AssumptionKind(
        "A call leaves a borrowed reference or NULL where an argument points to.", True, True),
    "output of a function of the file": AssumptionKind(
        "A function of the file leaves a new reference or NULL where an argument points to.", True, True),
    "output parameter": AssumptionKind(
        "What a parameter points to holds no reference where the function stores there before it reads it, and no "
        "other such parameter points there.", False, True),
    "struct passed by address": AssumptionKind(
        "A call that gets the address of a local struct leaves borrowed references or NULL in its fields.", True, True),
    "buffer passed on": AssumptionKind(
        "A call that gets the address of a local Py_buffer leaves the reference in it as it is.", True, True),
    "pointer to a struct": AssumptionKind(
        "A pointer that is not kept, taken as one to a struct without a count, points to any such struct.", False,
        False),
    "pointer to object": AssumptionKind(
        "A pointer that is not kept, cast to an object, is any borrowed reference.", True, True),
    "pointer returned as an object": AssumptionKind(
        "A pointer that is not kept, returned as an object, is a new reference or NULL.", True, True),
    "address of a slot": AssumptionKind(
        "A store through the address of a field does not change what the field is seen to hold.", True, True),
    "element": AssumptionKind(
        "An element of an array of objects is any borrowed reference.", True, True),
    "element moved out": AssumptionKind(
        "An element that is stored over or given up next gives its reference to the variable.", True, True),
    "stored in an array": AssumptionKind(
        "A store into an array takes the reference over, and what stood there is not counted.", True, True),
    "count of an element": AssumptionKind(
        "A change of the count of an array's element is not counted.", True, True),
    "object read from memory": AssumptionKind(
        "An object that is read from memory that is not kept, as from a union, is any borrowed reference.", True, True),
    "object stored in memory": AssumptionKind(
        "A store into memory that is not kept, as into a union, takes no reference over.", True, True),
    "end of an object": AssumptionKind(
        "Where an object is freed, each of its fields gives its reference up, and its type's reference goes where the "
        "function gives that up or the type's table asks for it.", False, False),
    "new object": AssumptionKind(
        "The fields of an object that is made here hold nothing at first.", False, False),
    "init runs once": AssumptionKind(
        "What an initialiser stores into first held nothing.", False, True),
    "filled once": AssumptionKind(
        "Where a static object is found to be NULL, the statics that are stored there hold nothing.", False, True),
    "call implemented": AssumptionKind(
        "What a call returns, where it is put in place of Py_NotImplemented, is another object.", False, True),
    "field given up": AssumptionKind(
        "A field of a struct without a count whose reference a function gives up, and that it does not name again, "
        "holds nothing.", False, True),
    "keywords": AssumptionKind(
        "Each optional argument is given or not, whatever the others are.", False, False),
    "format": AssumptionKind(
        "A format that is no constant takes nothing over.", True, True),
    "any number": AssumptionKind(
        "The result of an arithmetic that Pungi does not follow is any number.", True, False),
    "variadic": AssumptionKind(
        "Arguments after the named ones are any values.", False, False),
    "resized object": AssumptionKind(
        "PyObject_GC_Resize returns the object itself or NULL.", False, True),
}


def is_weak(name: str) -> bool:
    """Whether a fault that rests on an assumption may be none."""
    return name not in ASSUMPTIONS or ASSUMPTIONS[name].is_weak
