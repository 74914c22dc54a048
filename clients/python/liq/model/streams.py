"""What comes in and what goes out of a word, and how a word ends before its end."""
import os
from typing import Callable, List, Optional, TypeVar

from ..errors import LiqError
from ..grammar import LINE_BYTES_MOST, NoRequest

Found = TypeVar("Found")
READ_BYTES = 16_384
LINES_MOST = 1_000_000
LINE_END = b"\n"


class Halt(LiqError):
    """A word ends before its end: with this status, and this last line, which is empty where there is none."""

    def __init__(self, status: int, last: str = "") -> None:
        super().__init__(status, last)
        self.status, self.last = status, last


class BadInput(Halt):
    """A line, counted from 1, asks for nothing. Of one that is too long only the beginning is known."""

    def __init__(self, number: int, line: bytes) -> None:
        super().__init__(2, f"bad line {number}")
        self.args = (number, line)
        self.number, self.line = number, line


class Source:
    """A stream that is read."""

    def __init__(self, descriptor: int) -> None:
        self.descriptor = descriptor

    def read(self, count: int) -> bytes:
        """At most so many bytes; none at the end. Raises OSError."""
        return os.read(self.descriptor, count)


class Sink:
    """A stream that is written."""

    def __init__(self, descriptor: int) -> None:
        self.descriptor = descriptor

    def write(self, data: bytes) -> None:
        """Writes all bytes. Raises OSError."""
        while data:
            data = data[os.write(self.descriptor, data) :]


class Lines:
    """The lines of a source, without their line ends. Of a line no more is taken than one byte past the most that it
    may have."""

    def __init__(self, source: Source) -> None:
        self.source, self.chunk, self.at, self.count = source, b"", 0, 0

    def has_whole(self) -> bool:
        """Whether the next line was read to its end already."""
        return self.chunk.find(LINE_END, self.at) >= 0

    def next(self) -> Optional[bytes]:
        """The next line; None at the end. Raises `Halt`."""
        line = b""
        while True:
            end = self.chunk.find(LINE_END, self.at, self.at + LINE_BYTES_MOST + 1 - len(line))
            if end >= 0:
                line += self.chunk[self.at : end]
                self.at, self.count = end + 1, self.count + 1
                return line
            part = self.chunk[self.at : self.at + LINE_BYTES_MOST + 1 - len(line)]
            line, self.at = line + part, self.at + len(part)
            if len(line) > LINE_BYTES_MOST:
                raise BadInput(self.count + 1, line)
            if not self.fill():
                self.count += bool(line)
                return line or None

    def fill(self) -> bool:
        """Reads on, where all was taken. Says whether there was more. Raises `Halt`."""
        try:
            self.chunk, self.at = self.source.read(READ_BYTES), 0
        except OSError:
            raise Halt(3, "read fault") from None
        return bool(self.chunk)

    def check_limit(self) -> None:
        """Raises `Halt` where a line begins behind the most that a word takes."""
        if self.at < len(self.chunk) or self.fill():
            raise Halt(8, f"limit {LINES_MOST}")

    def all(self, read: Callable[[str], Found]) -> List[Found]:
        """All lines, each as `read` finds it. Raises `Halt`, at the first for which that raises `NoRequest`."""
        found: List[Found] = []
        while self.count < LINES_MOST:
            line = self.next()
            if line is None:
                return found
            try:
                found.append(read(line.decode("latin-1")))
            except NoRequest:
                raise BadInput(self.count, line) from None
        self.check_limit()
        return found
