"""The tree of the prepared text, and how it is printed."""
