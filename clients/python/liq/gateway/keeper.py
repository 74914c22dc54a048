"""The archive in front of each rotation: `liq.archive` in a process of its own, since it may replay a whole
generation."""
import contextlib
import os
import subprocess
import sys
from pathlib import Path
from typing import IO, List, NamedTuple, Optional, Sequence

from ..ends import Folder

SAID_MOST = 2000


class Outcome(NamedTuple):
    """How an archiving ended, and what it said."""

    is_done: bool
    said: str


class Keeper:
    """Runs the archiving, one at a time."""

    def __init__(self, folder: Folder, directory: Folder, words: Optional[Sequence[str]] = None) -> None:
        self._words: List[str] = list(words) if words else [sys.executable, "-m", "liq.archive"]
        self._words += [str(Path(folder).absolute()), str(Path(directory).absolute())]
        self._process: "Optional[subprocess.Popen[bytes]]" = None
        self._said: Optional[IO[bytes]] = None
        self._fault: Optional[str] = None  # why none could be begun

    @property
    def is_busy(self) -> bool:
        """Whether one goes on, or has ended and its outcome was not taken."""
        return self._process is not None or self._fault is not None

    def begin(self) -> None:
        """Begins one, where none goes on. Python takes its modules from where this one's are, and the files of the
        market are no modules: it runs elsewhere. Where the system begins none, as for want of memory, that is its
        outcome."""
        if self.is_busy:
            return
        modules = str(Path(__file__).resolve().parents[2])
        try:
            with contextlib.ExitStack() as opened:
                said = opened.enter_context(open(os.memfd_create("said"), "w+b"))
                self._process = subprocess.Popen(
                    self._words, cwd="/", stdin=subprocess.DEVNULL, stdout=said, stderr=subprocess.STDOUT,
                    env={**os.environ, "PYTHONPATH": modules, "PYTHONDONTWRITEBYTECODE": "1"}, start_new_session=True,
                )
                self._said = said
                opened.pop_all()
        except OSError as fault:
            self._fault = f"it could not be begun: {fault}"

    def outcome(self) -> Optional[Outcome]:
        """How it ended; None while it goes on. It is told once."""
        if self._fault is not None:
            why, self._fault = self._fault, None
            return Outcome(False, why)
        if self._process is None or self._process.poll() is None:
            return None
        assert self._said
        self._said.seek(0)
        said = self._said.read(SAID_MOST).decode("ascii", "replace").strip().replace("\n", "; ")
        self._said.close()
        status, self._process = self._process.returncode, None
        return Outcome(status == 0, said or ("" if status == 0 else f"it ended with {status}"))

    def stop(self) -> None:
        """Ends one that goes on: it is begun again by the next start."""
        if self._process is not None:
            self._process.kill()
            self._process.wait()
            self._process = None
