"""Calls: of the API, of the module's own functions, and of others."""
