"""Why a function is not judged, in words."""

from __future__ import annotations

from .model import Verdict

#: The reasons of the verdict `unknown` (README, 'What a report means'), and those that this tool adds.
UNKNOWN = {
    "traces": "there are more ways through it than Pungi looks at",
    "shapes": "its objects take more shapes than Pungi looks at",
    "range": "its numbers grow past the range in which Pungi computes",
    "number": "a number in it is not followed; up to there nothing is wrong",
    "loop": "a loop in it is followed until it begins a third round; up to there nothing is wrong",
    "call": "a call in it is not followed, as calls are too deep or too large together; no fault was found without it",
    "time": "judging it takes longer than is allowed",
    "memory": "judging it takes more memory than there is",
    "conventions": "the module has more conventions than Pungi takes",
}

#: The rules of the verdict `refused` (README, 'What is refused').
REFUSED = {
    "N1": "the type of a parameter, local, result or cast is not supported",
    "N2": "an operator or constant is not supported",
    "N3": "a call through a pointer, or the name of a function that is not called",
    "N4": "a cast between an integer and a pointer",
    "N5": "an address is taken of what is no type object",
    "N6": "a goto into a block",
    "N7": "a label or case stands where Pungi does not support it",
    "N8": "a name is declared twice",
    "N9": "it calls or names what is not known or not prepared",
    "N10": "operands or arguments are of the wrong kind",
    "N12": "a field is not known",
    "N13": "arithmetic on a pointer",
    "N14": "a constant is out of range",
    "N15": "it has too many locals",
    "N16": "it is too long",
    "N17": "its convention does not fit it",
}


#: The reason begins so where the program refuses the whole text at a place within the function.
FILE = "file"


def cause_of(verdict: Verdict) -> str:
    """The reason of a verdict as one word."""
    return (verdict.reason or verdict.word).split(" ")[0]


def reason_of(verdict: Verdict) -> str:
    """Why a function with this verdict is not judged."""
    cause = cause_of(verdict)
    if cause == FILE:
        return f"Pungi cannot read its prepared text ({verdict.reason})"
    if verdict.word == "refused":
        return f"{REFUSED.get(cause, 'a rule of Pungi is broken')} (rule {cause} in the prepared text)"
    if verdict.callee is not None:
        return f"{UNKNOWN[cause]} (the call of {verdict.callee})"
    return UNKNOWN.get(cause, f"Pungi gave up ({cause})")
