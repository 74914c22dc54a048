"""Files that a program keeps for itself, as the gateway's book and log and the guard's note: nobody else may have made
or may write them."""
import os
import stat
from pathlib import Path
from typing import Optional

from .ends import Folder, Unfit

OTHERS_WRITE = stat.S_IWGRP | stat.S_IWOTH


class NotOwn(Unfit):
    """A file, or the folder that it is in, could be another user's work."""

    def __init__(self, path: Folder, why: str) -> None:
        super().__init__(path, why)
        self.path, self.why = Path(path), why

    def __str__(self) -> str:
        return f"{self.path}: {self.why}"


def check_own(path: Folder, owner: Optional[int] = None) -> None:
    """Raises `NotOwn` where somebody else could have made or could write a file of this name, be it there yet or not;
    or where what is there is a link, or no regular file. Where this raises nothing nobody but root, the user of this
    process and `owner` can change what it has found."""
    path = Path(path)
    _check_folders(path.absolute().parent.resolve(strict=True), owner)
    try:
        found = path.lstat()
    except FileNotFoundError:
        return
    if not stat.S_ISREG(found.st_mode) or found.st_nlink != 1:
        raise NotOwn(path, "it is a link, has a second name, or is no regular file")
    if not _is_own(found, owner):
        raise NotOwn(path, "it is another user's, or others may write it: chown and chmod go-w it")


def open_own(path: Folder, flags: int) -> int:
    """Opens such a file; one that is made is its owner's alone. Raises `NotOwn`, or `OSError`."""
    check_own(path)
    return os.open(path, flags | os.O_NOFOLLOW | os.O_NONBLOCK | os.O_NOCTTY | os.O_CLOEXEC, 0o600)


def _check_folders(folder: Path, owner: Optional[int]) -> None:
    """Raises `NotOwn` where others may put something into a folder, or put another one in its place. In the folders
    above it, as /tmp, the sticky bit keeps them from that; in itself it doesn't keep them from making names."""
    if not _is_own(folder.stat(), owner):
        raise NotOwn(folder, "the folder is another user's, or others may write it: chown and chmod go-w it")
    for above in folder.parents:
        mode = above.stat().st_mode
        if mode & OTHERS_WRITE and not mode & stat.S_ISVTX:
            raise NotOwn(above, f"others may write this folder, which {folder} is in: chmod go-w it")


def _is_own(found: os.stat_result, owner: Optional[int]) -> bool:
    return found.st_uid in (0, os.geteuid(), owner) and not found.st_mode & OTHERS_WRITE
