"""From a source to a text within the subset that the program reads."""
