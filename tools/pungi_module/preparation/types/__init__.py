"""The types, constants and tables of a module."""
