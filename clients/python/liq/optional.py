"""Packages that are used where they are there: numpy for columns, pandas for frames. Nothing else needs one."""
import importlib
from typing import Any

from .errors import NoPackage


def need(name: str, text: str) -> Any:
    """A package, which is loaded with the first call that wants it. Raises `NoPackage` with this text, and with the
    package's `name`, where it is not there."""
    try:
        return importlib.import_module(name)
    except ImportError:
        raise NoPackage(text, name=name) from None
