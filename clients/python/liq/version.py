"""The version of this package, said here alone: pyproject.toml and the commands take it from here."""
__version__ = "0.1.0"
