"""The log, a JSON object a line, and the counts, a name and a number a line."""
import contextlib
import json
import os
import select
import socket
import stat
import threading
import time
from collections import Counter
from datetime import datetime, timezone
from typing import Any, Dict, List, Optional, Tuple

from ..ends import Folder
from ..own import open_own

REFUSALS_A_SECOND = 10  # of a caller, that are logged one by one; the others are counted


class Log:
    """Writes events to a file that only grows, or to standard error. A line that can't be written is counted as lost,
    and the next one that can be written says how many are. It waits for nobody who should read what is written."""

    def __init__(self, path: Optional[Folder] = None) -> None:
        self._path = path
        self._lock = threading.Lock()
        self._is_cut = False
        self.lost = 0
        self._said_lost = 0
        self._second = 0
        self._refusals: Counter[str] = Counter()
        self._file = self._open()

    def _open(self) -> int:
        if self._path is None:
            return 2
        return open_own(self._path, os.O_WRONLY | os.O_APPEND | os.O_CREAT)

    def reopen(self) -> None:
        """Goes on in a new file, where the old one was moved away."""
        with self._lock:
            new = self._open()
            old, self._file = self._file, new
            if old != 2:
                os.close(old)

    def close(self) -> None:
        with self._lock:
            if self._file != 2:
                os.close(self._file)
                self._file = 2

    def write(self, event: str, **about: Any) -> None:
        """Writes an event."""
        self.write_all([(event, about)])

    def write_all(self, events: List[Tuple[str, Dict[str, Any]]]) -> None:
        """Writes events at once."""
        now = datetime.now(timezone.utc).isoformat(timespec="milliseconds").replace("+00:00", "Z")
        with self._lock:
            count = len(events)
            if self.lost > self._said_lost:
                events = [("lost", {"lines": self.lost - self._said_lost}), *events]
            lines = [json.dumps({"time": now, "event": event, **about}) + "\n" for event, about in events]
            data = ("\n" if self._is_cut else "").encode() + "".join(lines).encode("ascii")
            written = write_most(self._file, data)
            if written == len(data):
                self._said_lost = self.lost
                self._is_cut = False
            else:
                self.lost += min(count, data.count(b"\n", written))
                self._is_cut = self._is_cut or data[:written][-1:] != b"\n"

    def refused(self, caller: str, name: str, **about: Any) -> None:
        """Writes that a line was refused: of each caller so many a second, then that there were more."""
        second = int(time.monotonic())
        with self._lock:
            more: Dict[str, int] = {}
            if second != self._second:
                more = {who: count - REFUSALS_A_SECOND for who, count in self._refusals.items()}
                self._refusals.clear()
                self._second = second
            self._refusals[caller] += 1
            is_logged = self._refusals[caller] <= REFUSALS_A_SECOND
        events: List[Tuple[str, Dict[str, Any]]] = [
            ("refused more", {"caller": who, "lines": count}) for who, count in more.items() if count > 0
        ]
        if is_logged:
            events.append(("refused", {"caller": caller, "name": name, **about}))
        if events:
            self.write_all(events)


def write_most(descriptor: int, data: bytes) -> int:
    """Writes as many of some bytes as are taken without waiting, and gives how many."""
    written = 0
    with contextlib.suppress(OSError):
        while written < len(data):
            part = write_some(descriptor, data[written:])
            if not part:
                break
            written += part
    return written


def write_some(descriptor: int, data: bytes) -> int:
    """Writes a part of some bytes, and gives how many: 0 where a socket, a pipe or a terminal takes none now, as where
    its reader has stopped. It never waits."""
    kind = os.fstat(descriptor).st_mode
    if stat.S_ISREG(kind):
        return os.write(descriptor, data)
    if stat.S_ISSOCK(kind):
        with contextlib.suppress(BlockingIOError), socket.socket(fileno=os.dup(descriptor)) as to:
            return to.send(data, socket.MSG_DONTWAIT | socket.MSG_NOSIGNAL)
        return 0
    if not select.select([], [descriptor], [], 0)[1]:
        return 0
    return os.write(descriptor, data[: select.PIPE_BUF])  # a pipe that takes something takes so much


class Counts:
    """Numbers that grow, by a name and labels."""

    def __init__(self) -> None:
        self._lock = threading.Lock()
        self._begin = time.monotonic()
        self._counts: Counter[Tuple[str, Tuple[Tuple[str, str], ...]]] = Counter()

    def add(self, name: str, count: int = 1, **labels: str) -> None:
        with self._lock:
            self._counts[name, tuple(sorted(labels.items()))] += count

    def get(self, name: str, **labels: str) -> int:
        with self._lock:
            return self._counts[name, tuple(sorted(labels.items()))]

    def text(self, **others: int) -> str:
        """A line for each: the name, its labels if it has some, and the number."""
        with self._lock:
            rows = [(name, labels, count) for (name, labels), count in self._counts.items()]
        rows += [(name, (), count) for name, count in others.items()]
        rows.append(("seconds", (), int(time.monotonic() - self._begin)))
        lines = []
        for name, labels, count in sorted(rows):
            within = ",".join(f'{label}="{value}"' for label, value in labels)
            lines.append(f"liq_{name}{'{' + within + '}' if within else ''} {count}\n")
        return "".join(lines)
