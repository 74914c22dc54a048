"""A caller of a gateway: a connection, lines, replies.

    with Caller("/run/liq/callers") as caller:
        caller.ask("order-17 fund 1 5")     # "ok"; the same line again gets the same reply
"""
import logging
import socket
import time
from collections import deque
from types import TracebackType
from typing import Deque, Optional, Type

from ..ends import Folder
from ..errors import BadValue, LiqError, NotReady, TimedOut
from ..service import seconds_of

LOG = logging.getLogger("liq")
PIECE_BYTES = 65536
SECONDS_A_LOOK = 0.02


class Gone(LiqError):
    """The connection has ended. Whether the last line was carried out is told by the same line again, with its key."""


class Caller:
    """A connection to a gateway; `name` is for the relay, which says so for whom it speaks.

    Each call takes at most `timeout` seconds, any time where that is None, or a time of its own. Where it is over the
    call raises `TimedOut`. Then the reply is unknown, and the key is kept: the same line again, on this connection,
    waits on for its reply; on another one, with its key, it is carried out once, and the reply tells the truth. No
    other command is sent before that reply has come. The reply to a query that was late is left out by itself.
    """

    def __init__(self, path: Folder, name: Optional[str] = None, timeout: Optional[float] = 60.0) -> None:
        self.timeout = seconds_of(timeout)
        self._unread = b""
        self._owed: Deque[str] = deque()  # lines that were sent and have no reply
        self.socket = socket.socket(socket.AF_UNIX, socket.SOCK_STREAM)
        try:
            self._connect(path)
            if name is not None:
                self._send(f"as {name}", self._until(None))
        except BaseException:
            self.socket.close()
            raise

    def _connect(self, path: Folder) -> None:
        """Connects, and waits for a place where more do than the gateway has taken."""
        until = self._until(None)
        while True:
            self.socket.settimeout(self._left(until, f"no place at {path}"))
            try:
                self.socket.connect(str(path))
                return
            except BlockingIOError:
                time.sleep(SECONDS_A_LOOK)
            except socket.timeout:
                raise self._late(f"no place at {path}") from None

    # ---- time

    def _until(self, timeout: Optional[float]) -> Optional[float]:
        self._seconds = self.timeout if timeout is None else seconds_of(timeout)
        return None if self._seconds is None else time.monotonic() + self._seconds

    def _left(self, until: Optional[float], what: str = "no reply") -> Optional[float]:
        """How many seconds are left. Raises `TimedOut` where none are."""
        left = None if until is None else until - time.monotonic()
        if left is not None and left <= 0:
            raise self._late(what)
        return left

    def _late(self, what: str = "no reply") -> TimedOut:
        late = TimedOut(self._seconds or 0.0, self.pending, what)
        LOG.error("gateway: %s", late)
        return late

    @property
    def pending(self) -> Optional[str]:
        """The first line that was sent and has no reply; else None."""
        return self._owed[0] if self._owed else None

    # ---- lines

    def send(self, line: str, timeout: Optional[float] = None) -> None:
        """Sends a line, whose reply is read by `read`."""
        self._send(line, self._until(timeout))
        self._owed.append(line)

    def _send(self, line: str, until: Optional[float]) -> None:
        if "\n" in line or not line.isascii():
            raise BadValue(f"it is no line, of ASCII and without a line end: {line!r}")
        data = line.encode("ascii") + b"\n"
        while data:
            self.socket.settimeout(self._left(until, f"not sent whole: {line}"))
            try:
                data = data[self.socket.send(data):]
            except socket.timeout:
                self.socket.close()  # what was sent of it may not become the front of another line
                raise self._late(f"not sent whole: {line}") from None
            except (BrokenPipeError, ConnectionResetError):
                raise self._gone() from None

    def read(self, timeout: Optional[float] = None) -> str:
        """The next reply, to the first line that has none. Raises `Gone`, or `TimedOut` where none comes in time."""
        return self._read(self._until(timeout))

    def _read(self, until: Optional[float]) -> str:
        while b"\n" not in self._unread:
            self.socket.settimeout(self._left(until))
            try:
                piece = self.socket.recv(PIECE_BYTES)
            except socket.timeout:
                raise self._late() from None
            except ConnectionResetError:
                piece = b""
            if not piece:
                raise self._gone()
            self._unread += piece
        line, _, self._unread = self._unread.partition(b"\n")
        if self._owed:
            self._owed.popleft()
        return line.decode("ascii", "replace")

    def _gone(self) -> Gone:
        """That the connection has ended, with what came last."""
        gone = Gone(self._unread.decode("ascii", "replace").strip())
        LOG.error("gateway: the connection has ended; without a reply: %s", self.pending)
        return gone

    def ask(self, line: str, timeout: Optional[float] = None) -> str:
        """The reply to a line. Where that line was sent and has no reply yet, it is not sent again: the call waits on
        for its reply."""
        until = self._until(timeout)
        if len(self._owed) != 1 or self._owed[0] != line:
            self._settle(until)
            self._send(line, until)
            self._owed.append(line)
        return self._read(until)

    def _settle(self, until: Optional[float]) -> None:
        """Reads the replies to queries that came too late, and leaves them out. Raises `NotReady` where it is a command
        that has no reply."""
        for line in self._owed:
            if not line.startswith("? "):
                raise NotReady(f"a line has no reply yet: {line!r}; ask it again, which waits for its reply, or read()")
        while self._owed:
            self._read(until)

    def close(self) -> None:
        """Ends the connection."""
        self.socket.close()

    def __enter__(self) -> "Caller":
        return self

    def __exit__(
        self, kind: Optional[Type[BaseException]], fault: Optional[BaseException], trace: Optional[TracebackType]
    ) -> None:
        self.close()
