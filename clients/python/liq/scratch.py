"""A folder for copies that is gone behind its use, also where a signal or a bound on time ends the run."""
import contextlib
import secrets
import shutil
import signal
import tempfile
from pathlib import Path
from types import FrameType
from typing import Iterator, Optional

from .ends import Folder, TooMuch
from .journal import files_of
from .service import MEMORY

STOPS = (signal.SIGINT, signal.SIGTERM, signal.SIGHUP)


@contextlib.contextmanager
def scratch(folder: Folder, name: str) -> Iterator[Path]:
    """A new folder for copies of a folder's files: see `passing_folder`."""
    with passing_folder(name, sum(path.stat().st_size for path in files_of(folder))) as made:
        yield made


@contextlib.contextmanager
def passing_folder(name: str, size: int) -> Iterator[Path]:
    """A new folder: in memory, where there is room for so many bytes many times over; else where temporary files go. It
    is removed at the end, whatever that is but `kill -9`; for signals see `bounded`."""
    roomy = MEMORY.is_dir() and shutil.disk_usage(MEMORY).free > 8 * size + 2**26
    made = (MEMORY if roomy else Path(tempfile.gettempdir())) / f"{name}-{secrets.token_hex(8)}"
    try:
        made.mkdir(mode=0o700)
        yield made
    finally:
        try:
            shutil.rmtree(made, ignore_errors=True)
        finally:  # once more, where a signal has ended the first
            shutil.rmtree(made, ignore_errors=True)


@contextlib.contextmanager
def bounded(seconds: int) -> Iterator[None]:
    """Raises `TooMuch` where what is within takes more seconds. A signal that would end the process at once is raised
    too, as `SystemExit` with the status that a shell tells for it: so programs are ended, and scratch folders go.

    It is for the main thread of a program of its own. A signal that is ignored, as under nohup, stays so."""
    def late(number: int, frame: Optional[FrameType]) -> None:
        raise TooMuch("it takes", seconds, "seconds")

    def stop(number: int, frame: Optional[FrameType]) -> None:
        raise SystemExit(128 + number)

    handled = [number for number in STOPS if signal.getsignal(number) is not signal.SIG_IGN]
    before = [signal.signal(number, stop) for number in handled]
    alarm = signal.signal(signal.SIGALRM, late)
    signal.setitimer(signal.ITIMER_REAL, seconds)
    try:
        yield
    finally:
        signal.setitimer(signal.ITIMER_REAL, 0)
        signal.signal(signal.SIGALRM, alarm)
        for number, handler in zip(handled, before):
            signal.signal(number, handler)
