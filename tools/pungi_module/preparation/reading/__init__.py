"""A source, preprocessed and parsed."""
