"""What scripts of bench/ share: the built program, and a folder of their own for its files."""
import contextlib
import os
import signal
import subprocess
import sys
import tempfile
from pathlib import Path
from typing import Iterator

TOP = Path(__file__).resolve().parent.parent
# Another build of the program may be named as for bin/liq; it is never built then.
NAMED = os.environ.get("LIQ_PROGRAM", "")
PROGRAM = os.path.abspath(NAMED or TOP / "crates/liq_main/out/liq_main")
DISKS = ("left.liq", "right.liq")


def build() -> None:
    """Lets bin/liq build the program where there is none, or one that is older than its sources."""
    if not NAMED:
        subprocess.run([TOP / "bin/liq", "build"], stdin=subprocess.DEVNULL, stdout=subprocess.DEVNULL)


@contextlib.contextmanager
def room(place: str) -> Iterator[None]:
    """Goes into a new folder in this place, and removes it in the end, also where a signal ends the script."""
    for number in signal.SIGTERM, signal.SIGHUP:
        signal.signal(number, lambda came, _: sys.exit(128 + came))
    before = os.getcwd()
    with tempfile.TemporaryDirectory(dir=os.path.abspath(place)) as folder:
        os.chdir(folder)
        try:
            yield
        finally:
            os.chdir(before)


def new_disks() -> None:
    """Takes both files away, so that the next run begins a market."""
    for name in DISKS:
        if os.path.exists(name):
            os.remove(name)
