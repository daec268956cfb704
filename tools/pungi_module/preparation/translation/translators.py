"""All translators: their modules enter them into the tables of `handlers`."""

from ..calls import buffers, build_calls, calls, counts, parse_calls, special_calls
from . import addresses, casts, declarations, names, operators, statements, stores

ALL = (addresses, buffers, build_calls, calls, casts, counts, declarations, names, operators, parse_calls,
       special_calls, statements, stores)
