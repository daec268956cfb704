"""Checks of the rows in `pungi_module/rows`: against CPython's list of reference counts, its manual, its headers and
CPython itself."""
