"""The two files of a market, opened, held and written as the program does it.

A file is taken where the program would take it, under the same lock, so that neither opens what the other has. What is
written stands on the disk, behind a gate that is opened last, before the reply goes out.
"""
import errno
import fcntl
import os
import stat
from pathlib import Path
from typing import List, NamedTuple, Optional, Sequence

from ..ends import Folder, TooMuch
from ..errors import LiqError
from ..history import begun, replay
from ..journal import SIDES, Command, DamagedFile, Disk, is_open, read_checkpoint, sync
from .disks import checkpoint_bytes, command_bytes, header, record
from .requests import is_repeated, reply_to
from .state import Market

LINKS_MOST = 40
NO_LOCKS = (errno.ENOSYS, errno.ENOTSUP, errno.EOPNOTSUPP)


class FileId(NamedTuple):
    """Which file it is, of all that there are."""

    device: int
    number: int


class NotTaken(LiqError, OSError):
    """A file is not the user's alone, no regular file, or one that is in use for something else."""


# ---- which files are taken


def id_of(told: os.stat_result) -> FileId:
    """Which file a look was at."""
    return FileId(told.st_dev, told.st_ino)


def opened(path: Path, others: Sequence[FileId]) -> int:
    """A file that is there, or a new one, held. Raises OSError."""
    try:
        descriptor = existing(path)
    except FileNotFoundError:
        try:
            descriptor = os.open(path, os.O_RDWR | os.O_CREAT | os.O_EXCL | os.O_CLOEXEC, 0o600)
        except FileExistsError:
            descriptor = existing(path)
    try:
        check_owner(path, descriptor, others)
        hold(descriptor)
    except OSError:
        os.close(descriptor)
        raise
    return descriptor


def existing(path: Path) -> int:
    """A regular file that is there. Another one is not opened: a device may do something when it is."""
    if not stat.S_ISREG(os.stat(path).st_mode):
        raise NotTaken(f"{path} is no regular file")
    return os.open(path, os.O_RDWR | os.O_CLOEXEC)


def check_owner(path: Path, descriptor: int, others: Sequence[FileId]) -> None:
    """Raises OSError unless an open file is the one to which its name leads, and the user's own."""
    found, user = os.fstat(descriptor), os.geteuid()
    is_own = found.st_uid == user or user == 0
    if id_of(led_to(path, user)) != id_of(found) or not stat.S_ISREG(found.st_mode) or not is_own:
        raise NotTaken(f"{path} is not the user's")
    if found.st_mode & stat.S_IWOTH or id_of(found) in others:
        raise NotTaken(f"{path} may be written by everybody, or is in use")


def led_to(path: Path, user: int) -> os.stat_result:
    """What a name leads to by links of the user or root alone. Raises OSError."""
    for _ in range(LINKS_MOST + 1):
        seen = os.lstat(path)
        if not stat.S_ISLNK(seen.st_mode):
            return seen
        if seen.st_uid not in (user, 0):
            raise NotTaken(f"{path} is somebody else's link")
        path = path.parent / os.readlink(path)
    raise NotTaken(f"{path} is a link behind too many")


def hold(descriptor: int) -> None:
    """Holds a file as a run does. Where the file system has no locks nothing is held. Raises OSError."""
    try:
        fcntl.flock(descriptor, fcntl.LOCK_EX | fcntl.LOCK_NB)
    except OSError as fault:
        if fault.errno not in NO_LOCKS:
            raise


# ---- one file


class Scan(Disk):
    """A file's bytes, tested up to the last of its records. `read` tests the checkpoint."""

    def __init__(self, path: Path, data: bytes) -> None:
        self.path, self.data, self.checkpoint = path, data, None
        self.open = is_open(data)
        if self.open:
            self._read_header()
            self.commands = list(self._read_records())

    def read(self) -> None:
        """Reads the checkpoint. Raises DamagedFile."""
        try:
            self.checkpoint = read_checkpoint(self.path, self.data[self.header : self.begin], self.header)
        except TooMuch as fault:
            raise DamagedFile(self.path, 0, str(fault)) from None


class Held:
    """One of the two files, open. Every call may raise OSError."""

    def __init__(self, path: Path, descriptor: int) -> None:
        self.path, self.descriptor = path, descriptor

    def read(self) -> bytes:
        """All its bytes."""
        parts: List[bytes] = []
        at = 0
        while True:
            part = os.pread(self.descriptor, 2**24, at)
            if not part:
                return b"".join(parts)
            parts.append(part)
            at += len(part)

    def write_synced(self, at: int, data: bytes) -> None:
        """Writes bytes, which are on the disk behind it."""
        while data:
            done = os.pwrite(self.descriptor, data, at)
            at, data = at + done, data[done:]
        os.fdatasync(self.descriptor)

    def write_gated(self, gate: int, data: bytes) -> None:
        """Writes bytes behind a shut gate, and opens it once they are on the disk."""
        self.write_synced(gate + 1, data)
        self.write_synced(gate, b"\1")

    def settle(self, data: bytes, gate: int) -> None:
        """Shuts a gate of the file, whose bytes these are, where it isn't there or isn't shut."""
        if data[gate : gate + 1] != b"\0":
            self.write_synced(gate, b"\0")

    def stand(self, keeps_events: bool) -> "Optional[Standing]":
        """The journal on it, tested whole, and the market to which it leads; None where there is none. The gate behind
        its records is shut then. Raises DamagedFile."""
        os.fdatasync(self.descriptor)
        scan = Scan(self.path, self.read())
        if not scan.open:
            if scan.data:
                self.settle(scan.data, 0)
            return None
        self.settle(scan.data, scan.end)
        scan.read()
        market = begun(scan)
        market.events = [] if keeps_events else None
        replay(market, scan)
        return Standing(market, scan.end)


class Standing(NamedTuple):
    """The market that stands on a file, and where its next record goes."""

    market: Market
    end: int


# ---- both


class Pair(NamedTuple):
    """Both files, held."""

    left: Held
    right: Held

    def close(self) -> None:
        """Lets both go."""
        for held in self:
            os.close(held.descriptor)


def take_files(folder: Folder) -> Pair:
    """Takes both files, the left one first, and syncs the folders in which they are. Raises OSError."""
    others = [id_of(os.fstat(stream)) for stream in (0, 1, 2)]
    taken: List[Held] = []
    try:
        for side in SIDES:
            path = Path(folder, f"{side}.liq")
            taken.append(Held(path, opened(path, others)))
            others.append(id_of(os.fstat(taken[-1].descriptor)))
        for place in {Path(os.path.realpath(held.path)).parent for held in taken} | {Path(folder)}:
            sync(place)
    except OSError:
        for held in taken:
            os.close(held.descriptor)
        raise
    return Pair(*taken)


class Store:
    """A market over both files: each command that is accepted is on the disk before its reply is given.

    Raises DamagedFile, the left file's first, and OSError; then nothing was opened."""

    def __init__(self, pair: Pair, keeps_events: bool = False) -> None:
        self.pair = pair
        faults: List[DamagedFile] = []
        stood: List[Standing] = []
        for held in pair:
            try:
                found = held.stand(keeps_events)
            except DamagedFile as fault:
                faults.append(fault)
            else:
                stood += [found] if found else []
        if faults:
            raise faults[0]
        if stood:
            self.market, self.end = max(stood, key=lambda found: found.market.generation)
        else:
            self.market = Market()
            self.market.events = [] if keeps_events else None
            self.begin()

    @property
    def current(self) -> Held:
        """The file on which the journal goes on."""
        return self.pair[(self.market.generation + 1) % 2]

    def begin(self) -> None:
        """A new generation on its file, with a checkpoint in each but the first."""
        market = self.market
        checkpoint = checkpoint_bytes(market.checkpoint()) if market.generation > 1 else b""
        data = header(2, market.generation, checkpoint)
        self.current.settle(os.pread(self.current.descriptor, 1, 0), 0)
        self.current.write_gated(0, data[1:] + b"\0")
        self.end = len(data)

    def write(self, command: Command) -> None:
        """Puts an accepted command on the disk, behind which the market is this one."""
        if command.verb == "rotate":
            self.begin()
            return
        data = record(self.market.generation, self.market.records, command_bytes(command))
        self.current.write_gated(self.end, data[1:] + b"\0")
        self.end += len(data)

    def carry_out(self, command: Command) -> str:
        """The reply to a command, which stands by then where it is accepted."""
        again = is_repeated(self.market, command)
        told = reply_to(self.market, command)
        if told.startswith("ok") and not again:
            self.write(command)
        return told
