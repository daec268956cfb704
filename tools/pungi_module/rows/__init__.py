"""What the calls of the Python/C API do to references, as data.

`plain/` has a row for each call that the words of docs/CONFIGURATION.md describe: each file is a configuration, with
one row a line. `wide/` has those that need more words (see `wide.py`). `known.toml` has the names that Pungi knows by
itself; the calls among them have a row here as well. The files follow the chapters of the Python/C API Reference
Manual 3.11, then come functions of the headers that the manual leaves out, private ones that CPython's own modules
call, and the C library.

A parameter is `object?` or `text?` where the manual allows NULL, and also where the manual says nothing and CPython
3.11 returns with an error instead of crashing: a run goes on there.
"""

from .known import Known, load_known
from .plain import load_rows
from .wide import Output, WideRow, Written, load_wide_rows

__all__ = ["Known", "Output", "WideRow", "Written", "load_known", "load_rows", "load_wide_rows"]
