"""How the slots of a prepared text are written in the source."""

from __future__ import annotations

import re


def source_words(slot: str) -> str:
    """`self->item` for the field `self->f_item`, and `args[1]` for the element `args->i1`."""
    return re.sub(r"->i(\d+)\b", r"[\1]", slot.replace("->f_", "->"))
