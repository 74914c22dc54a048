"""The toolchain's own library for Python, for scripts that call the checker with the words that rt would."""
import functools
import importlib.machinery
import importlib.util
import subprocess
import sys
from pathlib import Path


def toolchain():
    """The library, which knows the words that a check takes, and the folder of the toolchain."""
    page = subprocess.run(["rt", "doc"], stdout=subprocess.PIPE, text=True, check=True).stdout.strip()
    kit = Path(page).parent
    loader = importlib.machinery.SourceFileLoader("rtlib", str(kit / "bin/rtlib.py"))
    made = importlib.util.module_from_spec(importlib.util.spec_from_loader("rtlib", loader))
    sys.modules["rtlib"] = made
    loader.exec_module(made)
    for name in ("below", "stamp"):  # each is asked for again and again, and goes through all that lies below
        setattr(made.Crate, name, functools.cache(getattr(made.Crate, name)))
    return made, kit
