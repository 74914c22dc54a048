"""The gateway's run of liq: lines of many clients sent together, replies that are waited for so long at most."""
import contextlib
import signal
import subprocess
import time
from typing import Iterator, List, Optional, Sequence

from ..ends import Folder, Killed
from ..errors import TimedOut
from ..guard import Held, held
from ..service import Service, begin_program

SECONDS_FOR_REPLY = 60.0
SECONDS_FOR_FIRST = 600.0  # of a run: it opens the journal before
SECONDS_FOR_FILES = 10.0  # a run whose gateway was killed goes on for one command
SECONDS_A_LOOK = 0.05


class Run(Service):
    """A run in a process group of its own, so that what is typed at a terminal ends the gateway alone. Where a reply
    does not come in time the run is killed, which is an end as any other."""

    def __init__(
        self, folder: Folder, program: Optional[Folder] = None, seconds: float = SECONDS_FOR_REPLY,
        seconds_for_first: float = SECONDS_FOR_FIRST,
    ) -> None:
        self._seconds_for_reply, self._seconds_for_first = seconds, seconds_for_first
        super().__init__(folder, program)

    def start(self) -> None:
        """Begins a run, once no other one holds the files. Raises `Held` where that takes too long."""
        if self._process is None:
            wait_for_files(self.folder)
            self._is_first = True
            super().start()

    def _spawn(self) -> "subprocess.Popen[bytes]":
        pipe, words = subprocess.PIPE, [self.program, "run"]
        return begin_program(words, self.folder, stdin=pipe, stdout=pipe, start_new_session=True)

    def exchange(self, lines: Sequence[str]) -> Iterator[str]:
        """The replies to lines of different clients, in their order, as they come; the lines are sent together, no more
        than the pipe holds. Raises how liq ended: the lines whose replies were given are answered, the first without
        one was being carried out, and those behind it were not."""
        self._check_going()
        for batch in self._batches(lines):
            self._write(batch)
            for _ in batch:
                yield " ".join(self._read())

    def _read(self, until: Optional[float] = None) -> List[str]:
        self._seconds = self._seconds_for_first if self._is_first else self._seconds_for_reply
        try:
            words = super()._read(time.monotonic() + self._seconds)
        except TimedOut:
            if self._process is None:
                raise Killed(-signal.SIGKILL, "", self.pending) from None
            self._process.kill()
            raise self._end() from None
        self._is_first = False
        return words


def wait_for_files(folder: Folder, seconds: float = SECONDS_FOR_FILES) -> None:
    """Waits until no run holds the files of a folder. Raises `Held` where one still does."""
    until = time.monotonic() + seconds
    while True:
        with contextlib.suppress(Held), held(folder):
            return
        if time.monotonic() > until:
            with held(folder):
                return
        time.sleep(SECONDS_A_LOOK)
