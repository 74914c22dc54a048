"""A bar that shows how far something is: at a terminal alone, on standard error, and gone behind it."""
import sys
import time
from types import TracebackType
from typing import Optional, Type

QUIET_SECONDS = 2.0  # what is done sooner shows no bar
BETWEEN_SECONDS = 0.2
WIDTH = 40


class Bar:
    """How far a step is, of as many parts as it has. Nothing is shown where standard error is no terminal, and nothing
    of what is done within two seconds."""

    def __init__(self) -> None:
        self.what, self.count, self.done, self.shown = "", 1, 0, 0
        self.wanted = sys.stderr is not None and sys.stderr.isatty()
        self.next = time.monotonic() + QUIET_SECONDS

    def begin(self, what: str, count: int) -> None:
        """The next step, of so many parts."""
        self.what, self.count, self.done = what, max(1, count), 0

    def add(self, parts: int = 1) -> None:
        """So many parts more are done."""
        self.done += parts
        if self.wanted and time.monotonic() >= self.next:
            self.next = time.monotonic() + BETWEEN_SECONDS
            self._show()

    def each(self, _: int) -> None:
        """One part more is done, whichever it is."""
        self.add()

    def _show(self) -> None:
        part = min(1.0, self.done / self.count)
        text = f"[{'#' * int(part * WIDTH):{WIDTH}}] {part:4.0%} {self.what}"
        sys.stderr.write("\r" + text.ljust(self.shown))
        sys.stderr.flush()
        self.shown = len(text)

    def __enter__(self) -> "Bar":
        return self

    def __exit__(
        self, kind: Optional[Type[BaseException]], fault: Optional[BaseException], trace: Optional[TracebackType]
    ) -> None:
        if self.shown:
            sys.stderr.write("\r" + " " * self.shown + "\r")
            sys.stderr.flush()
