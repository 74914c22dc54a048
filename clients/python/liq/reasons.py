"""Why liq can't use the files of a folder, as far as a look at them says: rights, a process that holds them, no room.

liq itself says `disk fault` at each of these. A look changes nothing, and waits for nothing; what it says is true of
the moment at which it looks.
"""
import contextlib
import fcntl
import os
import stat
from pathlib import Path
from typing import Dict, Iterator, List, NamedTuple, Optional, Tuple

from .ends import DiskFault, End, Folder, Locked, NoSpace, NotPermitted
from .journal import SIDES, NoRegularFile, files_of, open_file

LINKS_MOST = 40  # that the system follows, one behind the other
ROOM = 2**16  # bytes: where fewer are free behind a fault, it is taken to be for want of room


class Distrust(NamedTuple):
    """What speaks against a file. `is_right` says that it is a matter of rights, `is_refused` that liq ends at it."""

    name: str
    why: str
    is_right: bool = False
    is_refused: bool = True

    @property
    def text(self) -> str:
        """It, with the file's name in front."""
        return f"{self.name}: {self.why}"


def distrusted(folder: Folder) -> Iterator[Distrust]:
    """Files that liq does not take, or that another may write: by what they are, whose, and under which names."""
    user = os.geteuid()
    taken: Dict[Tuple[int, int], str] = {}
    for path in (Path(folder, f"{side}.liq") for side in SIDES):
        try:
            found = path.lstat()
        except (FileNotFoundError, NotADirectoryError):
            continue
        if stat.S_ISLNK(found.st_mode):
            for owner in owners_of_links(path):
                if owner not in (user, 0):
                    why = f"it is a link of user {owner}, and liq runs as {user}: make one of your own"
                    yield Distrust(path.name, why, is_right=True)
            try:
                found = path.stat()
            except OSError:
                yield Distrust(path.name, "it is a link to nothing")
                continue
        if not stat.S_ISREG(found.st_mode):
            yield Distrust(path.name, "it is no regular file")
            continue
        if user and found.st_uid != user:
            why = f"it belongs to user {found.st_uid}, and liq runs as {user}: chown it"
            yield Distrust(path.name, why, is_right=True)
        if found.st_mode & stat.S_IWOTH:
            yield Distrust(path.name, "every user may write it: chmod o-w", is_right=True)
        inode = found.st_dev, found.st_ino
        if inode in taken:
            yield Distrust(path.name, f"it is the same file as {taken[inode]}")
        elif found.st_nlink > 1:
            why = (
                f"the file has {found.st_nlink} names, and a run over another of them writes into this market: copy it,"
                " and move the copy in its place"
            )
            yield Distrust(path.name, why, is_refused=False)
        taken[inode] = path.name


def owners_of_links(path: Path) -> Iterator[int]:
    """Whose a link is, and each that it leads to."""
    for _ in range(LINKS_MOST):
        with contextlib.suppress(OSError):
            found = path.lstat()
            if stat.S_ISLNK(found.st_mode):
                yield found.st_uid
                path = path.parent / os.readlink(path)
                continue
        return


def forbidden(folder: Folder) -> Optional[str]:
    """Which right is missing on a folder or on a file in it; None where none is."""
    needs: List[Tuple[Path, int, str]] = [(Path(folder), os.X_OK, "look into it")]
    if may(folder, os.X_OK):
        there = files_of(folder)
        if len(there) < len(SIDES):
            needs.append((Path(folder), os.W_OK | os.X_OK, "make files in it"))
        needs += [(path, os.R_OK | os.W_OK, "read and write it") for path in there]
    for path, mode, what in needs:
        if not may(path, mode):
            if os.statvfs(path if path.exists() else folder).f_flag & os.ST_RDONLY:
                return f"{path} is on a file system that is read-only"
            return f"user {os.geteuid()} may not {what}: {path}"
    return None


def may(path: Folder, mode: int) -> bool:
    """Whether this process may use a path so."""
    return os.access(path, mode, effective_ids=os.access in os.supports_effective_ids)


def holder(folder: Folder) -> Optional[Path]:
    """The first of a folder's files that another process holds; None where none does, or it can't be seen.

    It takes the lock for a moment, together with whoever else looks, and lets it go."""
    for path in files_of(folder):
        with contextlib.suppress(OSError, NoRegularFile), open_file(path) as file:
            try:
                fcntl.flock(file, fcntl.LOCK_SH | fcntl.LOCK_NB)
            except BlockingIOError:
                return path
            # Said, since a process that another thread begins just now has this file open until it runs its program.
            fcntl.flock(file, fcntl.LOCK_UN)
    return None


def free_bytes(folder: Folder) -> Optional[int]:
    """How many bytes of a file system this process may still take; None where that isn't told."""
    try:
        found = os.statvfs(folder)
    except OSError:
        return None
    if found.f_blocks == 0:
        return None
    if found.f_files and not found.f_ffree:
        return 0
    return int(found.f_bavail if os.geteuid() else found.f_bfree) * found.f_frsize


def seen_fault(folder: Folder, status: int = 5, last: str = "", pending: Optional[str] = None) -> Optional[DiskFault]:
    """What a look says of why liq can't use a folder's files, but for want of room; None where it says nothing."""
    told = status, last, pending
    try:
        rights = forbidden(folder)
        refused = [it for it in distrusted(folder) if it.is_refused] if rights is None else []
        rights = rights or next((f"{folder}, {it.text}" for it in refused if it.is_right), None)
        if rights:
            return NotPermitted(*told, rights)
        held = holder(folder)
        if held:
            return Locked(*told, f"another process holds {held}: stop it first")
        if refused:
            return DiskFault(*told, f"{folder}, {refused[0].text}")
    except PermissionError as fault:
        return NotPermitted(*told, str(fault))
    except OSError:
        pass
    return None


def explained(end: End, folder: Optional[Folder]) -> End:
    """How liq ended over a folder's files: a disk fault with its reason, where that is seen."""
    if type(end) is not DiskFault or folder is None:
        return end
    told = end.status, end.last, end.pending
    seen = seen_fault(folder, *told)
    if seen is None:
        free = free_bytes(folder)
        if free is not None and free < ROOM:
            return NoSpace(*told, f"{free} bytes are free on the file system of {folder}")
    return seen or end


def check_usable(folder: Folder, begins: bool) -> None:
    """Raises what a look says of why liq can't use a folder's files, before it is begun. `begins` is for a market that
    isn't there yet, which wants room."""
    seen = seen_fault(folder)
    if seen is None and begins and free_bytes(folder) == 0:
        seen = NoSpace(5, "", None, f"nothing is free on the file system of {folder}")
    if seen is not None:
        raise seen
