"""Expressions, statements and declarations, each as it stands in the prepared text."""
