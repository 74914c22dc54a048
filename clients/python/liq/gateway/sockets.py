"""Sockets to listen on, made here or by systemd; and what systemd is told."""
import contextlib
import os
import socket
import stat
from pathlib import Path
from typing import Dict, Iterator

from ..ends import Folder, Unfit
from .door import BACKLOG

FIRST_OF_SYSTEMD = 3


class BadSocket(Unfit):
    """A socket can't be made."""

    def __init__(self, path: Folder, why: str) -> None:
        super().__init__(path, why)
        self.path, self.why = Path(path), why

    def __str__(self) -> str:
        return f"the socket {self.path}: {self.why}"


@contextlib.contextmanager
def made(path: Folder, mode: int) -> Iterator[socket.socket]:
    """A socket of this name that listens, with these rights. It is removed at the end. One that a killed process left
    is replaced, one on which somebody listens is not."""
    path = Path(path)
    with contextlib.suppress(FileNotFoundError):
        if not stat.S_ISSOCK(path.lstat().st_mode):
            raise BadSocket(path, "something else has its name")
        if is_heard(path):
            raise BadSocket(path, "another process listens there")
        path.unlink()
    listening = socket.socket(socket.AF_UNIX, socket.SOCK_STREAM)
    before = os.umask(0o777 & ~mode)
    try:
        listening.bind(str(path))
    except OSError as fault:
        listening.close()
        raise BadSocket(path, fault.strerror or str(fault)) from None
    finally:
        os.umask(before)
    listening.listen(BACKLOG)
    listening.setblocking(False)
    inode = path.lstat().st_ino
    try:
        yield listening
    finally:
        listening.close()
        with contextlib.suppress(OSError):
            if path.lstat().st_ino == inode:
                path.unlink()


def is_heard(path: Path) -> bool:
    """Whether a process listens on a socket of this name."""
    with socket.socket(socket.AF_UNIX, socket.SOCK_STREAM) as asking:
        asking.setblocking(False)
        try:
            asking.connect(str(path))
        except ConnectionRefusedError:
            return False
        except OSError:
            return True  # as where its queue is full, or it is not ours
        return True


def given() -> Dict[str, socket.socket]:
    """The sockets that systemd has made, by their names; none where it was not systemd that began this process. What
    this process begins gets neither them nor the word of them."""
    variables = {name: os.environ.pop(name, "") for name in ("LISTEN_PID", "LISTEN_FDS", "LISTEN_FDNAMES")}
    if variables["LISTEN_PID"] != str(os.getpid()):
        return {}
    found: Dict[str, socket.socket] = {}
    for at, name in enumerate(variables["LISTEN_FDNAMES"].split(":")[: int(variables["LISTEN_FDS"])]):
        listening = socket.socket(fileno=FIRST_OF_SYSTEMD + at)
        listening.setblocking(False)
        listening.set_inheritable(False)
        found[name] = listening
    return found


def tell_systemd(word: str) -> None:
    """Tells systemd, where it has said how."""
    path = os.environ.get("NOTIFY_SOCKET", "")
    if path:
        with contextlib.suppress(OSError), socket.socket(socket.AF_UNIX, socket.SOCK_DGRAM) as to:
            to.connect("\0" + path[1:] if path.startswith("@") else path)
            to.send(word.encode("ascii"))
