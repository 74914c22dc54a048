"""The journal of a market, read from its two files as docs/FORMATS.md has them: versions 1 and 2, and checkpoints.

It needs no program, and leaves the files alone. Read copies, or files that no liq has open: a record that is being
written may be missing. A reader of journals does not know the rules: it finds out damage to the bytes, and no command
that liq would refuse.

liq opens a gate before it syncs it, so a reader sees a record that a loss of power may still take back. So whatever is
read here of a market's files is settled before anything is said of it (`settle`).

It waits for nothing, and takes no more than stated: what is no regular file is not read (`NoRegularFile`), and neither
is one of more than `BYTES_MOST` bytes, or of as many as a call is told (`TooMuch`), be they holes or not.
"""
import errno
import hashlib
import os
import stat
import struct
from pathlib import Path
from typing import BinaryIO, Dict, Iterator, List, NamedTuple, Optional, Tuple

from .ends import Folder, NoJournal, TooMuch, Unfit
from .errors import LiqError

VERBS: Dict[str, str] = {  # in the order of their kinds; a for an account, v for an amount, h for a hint
    "price": "v", "advance": "v", "fund": "av", "take": "av", "send": "aav", "open": "avvvhh", "adjust": "avvvvvhh",
    "close": "a", "provide": "av", "withdraw": "av", "gain_to_trove": "ahh", "liquidate": "aa",
    "liquidate_lowest": "av", "redeem": "avvhh", "claim": "a", "rotate": "",
}
KINDS = list(VERBS)
FIELDS = {"a": 2, "v": 5, "h": 2}
NO_HINT = 2**32 - 1
COMMAND = struct.Struct(">B3xIQ2I5Q2I24x")
RECORD_BYTES = 129
HEADER_BYTES = {b"LIQJRNL1": 57, b"LIQJRNL2": 65}
FRONT_BYTES = max(HEADER_BYTES.values())
CHECKPOINT_BYTES_MOST = 2**36
RECORDS_MOST = 1_000_000
BYTES_MOST = 2**28  # of a file that is read, unless a call is told another number: twice a full journal
ROWS_MOST = 2**20  # of a checkpoint's table that is read: as many as there are accounts
PIECE_BYTES = 2**20
LIMITS = {1: 10**18, 2: 10**19}
SIDES = ("left", "right")


class DamagedFile(Unfit):
    """A file's bytes are not as liq wrote them: at record `record`, or in its header or checkpoint where that is 0."""

    def __init__(self, path: Path, record: int, why: str) -> None:
        super().__init__(path, record, why)
        self.path, self.record, self.why = path, record, why

    def __str__(self) -> str:
        return f"{self.path.name} is damaged at {self.record}: {self.why}"


class NoRegularFile(Unfit):
    """What has the name of a file is a folder, a pipe, a device or a socket. It is not read."""

    def __init__(self, path: Folder) -> None:
        super().__init__(path)
        self.path = Path(path)

    def __str__(self) -> str:
        return f"{self.path} is no regular file"


class Unknown(LiqError):
    """The records that it would take to tell are gone by two rotations."""


class Command(NamedTuple):
    """An accepted command."""

    client: int
    number: int
    verb: str
    accounts: Tuple[int, ...]
    amounts: Tuple[int, ...]
    hints: Tuple[Optional[int], ...]

    @property
    def call(self) -> str:
        """The verb and its words, without client and number."""
        left = {"a": iter(self.accounts), "v": iter(self.amounts), "h": iter(self.hints)}
        words = [next(left[kind]) for kind in VERBS[self.verb]]
        return " ".join([self.verb, *("-" if word is None else str(word) for word in words)])

    @property
    def line(self) -> str:
        """The command as a request line."""
        return f"{self.client} {self.number} {self.call}"


Data = bytes  # as the header below has it, a field of which has the name of the type


class Header(NamedTuple):
    """How a file begins: how many bytes that has, where the records begin, and the digest over the fields and the
    checkpoint."""

    bytes: int
    generation: int
    begin: int
    fields: Data
    digest: Data


def read_header(path: Path, front: bytes, size: int) -> Header:
    """The header of a file of so many bytes, by its first ones and whatever its gate is. Raises `DamagedFile` by the
    first field that is wrong, or where bytes are missing; the digest is not tested."""
    length = HEADER_BYTES.get(front[1:9], 0)
    if not length:
        raise DamagedFile(path, 0, "its name is that of no journal")
    if len(front) < length:
        raise DamagedFile(path, 0, "bytes are missing")
    generation, checkpoint = struct.unpack(">2Q", front[9:25])
    if generation == 0 or path.stem in SIDES and path.stem != SIDES[(generation + 1) % 2]:
        raise DamagedFile(path, 0, f"generation {generation} is none of this file")
    if (checkpoint == 0) != (generation == 1) or checkpoint > CHECKPOINT_BYTES_MOST:
        raise DamagedFile(path, 0, f"a checkpoint of {checkpoint} bytes in generation {generation}")
    fields, digest = front[1 : length - 32], front[length - 32 : length]
    if length == 65 and int.from_bytes(fields[24:], "big") != LIMITS[2]:
        raise DamagedFile(path, 0, "its limit is another")
    if size < length + checkpoint:
        raise DamagedFile(path, 0, "bytes are missing")
    return Header(length, generation, length + checkpoint, fields, digest)


class Disk:
    """One of the two files, whole: its header, its checkpoint, if it has one, and its records. It has at most `most`
    bytes. Where `data` are given these are read in place of the file."""

    def __init__(self, path: Folder, most: int = BYTES_MOST, data: Optional[bytes] = None) -> None:
        self.path = Path(path)
        self.data = data if data is not None else read_file(self.path, most) if self.path.exists() else b""
        self.open = is_open(self.data)
        if self.open:
            self._read_header()
            self.commands = list(self._read_records())
            self.checkpoint = read_checkpoint(self.path, self.data[self.header : self.begin], self.header)

    def _read_header(self) -> None:
        found = read_header(self.path, self.data[:FRONT_BYTES], len(self.data))
        self.header, self.generation, self.begin = found.bytes, found.generation, found.begin
        self.version = 1 if self.header == 57 else 2
        if hashlib.sha256(found.fields + self.data[self.header : self.begin]).digest() != found.digest:
            raise DamagedFile(self.path, 0, "its digest is another")

    def _read_records(self) -> Iterator[Command]:
        """The whole records from the first on. What stands behind them has no meaning."""
        self.end = self.begin
        head = self.generation.to_bytes(8, "big")
        while self.data[self.end : self.end + 1] == b"\1" and len(self.data) >= self.end + RECORD_BYTES:
            index = (self.end - self.begin) // RECORD_BYTES + 1
            if index > RECORDS_MOST:
                raise DamagedFile(self.path, index, f"a generation has at most {RECORDS_MOST:,} records")
            body = self.data[self.end + 1 : self.end + RECORD_BYTES]
            if hashlib.sha256(head + index.to_bytes(8, "big") + body[:96]).digest() != body[96:]:
                raise DamagedFile(self.path, index, "its digest is another")
            command = read_command(body[:96])
            if command is None:
                raise DamagedFile(self.path, index, "it is no command")
            self.end += RECORD_BYTES
            yield command

    def extends(self, older: "Disk") -> bool:
        """Whether this file goes on from an older copy of the same generation."""
        return self.data[1 : older.end] == older.data[1 : older.end]


class Journal:
    """Both files of a market, each of at most `most` bytes. `current` counts, `earlier` is the generation before it,
    where its file still has it. Raises `NoJournal` where neither holds a journal."""

    def __init__(self, folder: Folder, most: int = BYTES_MOST) -> None:
        self.folder = Path(folder)
        disks = [disk for disk in (Disk(self.folder / f"{side}.liq", most) for side in SIDES) if disk.open]
        if not disks:
            raise NoJournal(folder)
        disks.sort(key=lambda disk: disk.generation)
        self.current = disks[-1]
        before = [disk for disk in disks if disk.generation == self.current.generation - 1]
        self.earlier: Optional[Disk] = before[0] if before else None

    @property
    def chain(self) -> List[Disk]:
        """The generations that are there without a gap, oldest first."""
        return [disk for disk in (self.earlier, self.current) if disk is not None]

    @property
    def lines(self) -> List[str]:
        """The accepted commands of the generation that counts, as request lines. A rotation is none of them."""
        return [command.line for command in self.current.commands]

    def extends(self, older: "Journal") -> bool:
        """Whether this journal goes on from an older copy of it: the older records stand in it as they were.

        After two rotations those records are gone, and `Unknown` is raised.
        """
        if older.current.generation > self.current.generation:
            return False
        for disk in self.chain:
            if disk.generation == older.current.generation:
                return disk.extends(older.current)
        raise Unknown(f"generation {older.current.generation} is no more in {self.folder}")


# ---- a checkpoint


class KeptReply(NamedTuple):
    """A client's last number, and the reply that it gets again."""

    last: int
    verb: str
    values: Tuple[int, ...]


class TroveRow(NamedTuple):
    """A trove as of its owner's last operation, and what the sums per stake were then."""

    coll: int
    debt: int
    stake: int
    mark_coll: int
    mark_debt: int

    @property
    def key(self) -> int:
        """By what the list of troves ascends, before the account."""
        return self.debt * 10**18 // self.stake - self.mark_debt


class DepositRow(NamedTuple):
    """A deposit as of its owner's last operation, and the words of the Stability Pool then."""

    amount: int
    p: int
    sum: int
    scale: int
    epoch: int


class Checkpoint(NamedTuple):
    """A market as a whole. Amounts of LUSD are in millionths, ether is in gwei."""

    version: int
    price: int
    minute: int
    base_rate: int
    fee_minute: int
    generation: int
    brought: int
    active_coll: int
    active_debt: int
    default_coll: int
    default_debt: int
    reserve: int
    surplus: int
    fee_coll: int
    fee_lusd: int
    sum_coll: int
    sum_debt: int
    stakes: int
    snap_stakes: int
    snap_coll: int
    p: int
    scale: int
    epoch: int
    sum: int
    pool_lusd: int
    pool_coll: int
    wallets: Dict[int, Tuple[int, int]]
    troves: Dict[int, TroveRow]
    surpluses: Dict[int, int]
    finished: Dict[Tuple[int, int], int]
    deposits: Dict[int, DepositRow]
    clients: Dict[int, KeptReply]

    @property
    def list_of_troves(self) -> List[int]:
        """The accounts of all troves in the list's order: the last one counts as that of the lowest ratio."""
        return sorted(self.troves, key=lambda account: (self.troves[account].key, account))


class _Reader:
    """Big-endian fields, one behind the other."""

    def __init__(self, path: Path, data: bytes) -> None:
        self.path, self.data, self.at = path, data, 0

    def fault(self, why: str) -> DamagedFile:
        return DamagedFile(self.path, 0, f"its checkpoint, at {self.at}: {why}")

    def numbers(self, *sizes: int) -> List[int]:
        found = []
        for size in sizes:
            if self.at + size > len(self.data):
                raise self.fault("bytes are missing")
            found.append(int.from_bytes(self.data[self.at : self.at + size], "big"))
            self.at += size
        return found

    def table(self, key: int, *sizes: int) -> Iterator[Tuple[int, List[int]]]:
        """The rows of a table, each as its key and the rest. Keys ascend."""
        last, (count,) = -1, self.numbers(8)
        if count * (key + sum(sizes)) > len(self.data) - self.at:
            raise self.fault("bytes are missing")
        if count > ROWS_MOST:
            raise TooMuch(f"a table of {self.path.name}'s checkpoint has", ROWS_MOST, "rows")
        for _ in range(count):
            found, *rest = self.numbers(key, *sizes)
            if found <= last:
                raise self.fault("a key does not ascend")
            last = found
            yield found, rest


def read_checkpoint(path: Path, data: bytes, header: int) -> Optional[Checkpoint]:
    """The checkpoint of a file; None where it has none."""
    if not data:
        return None
    names = {b"LIQSTAT1": 1, b"LIQSTAT2": 2}
    if data[:8] not in names:
        raise DamagedFile(path, 0, "its checkpoint has no name")
    reader = _Reader(path, data)
    reader.at = 8
    words = reader.numbers(*[8] * 14, 16, 16, 8, 8, 8, 16, 8, 8, 16, 8, 8)
    made = Checkpoint._make((
        names[data[:8]], *words,
        {account: (coll, lusd) for account, (coll, lusd) in reader.table(4, 8, 8)},
        {account: _trove(reader, row) for account, row in reader.table(4, 8, 8, 8, 16, 16)},
        {account: coll for account, (coll,) in reader.table(4, 8)},
        {(place >> 64, place % 2**64): grown for place, (grown,) in reader.table(16, 16)},
        {account: _deposit(reader, row) for account, row in reader.table(4, 8, 16, 16, 8, 8)},
        {client: _kept(reader, row) for client, row in reader.table(4, 8, 1, *[8] * 6)},
    ))
    if reader.at != len(data):
        raise reader.fault("something follows")
    return made


def _trove(reader: _Reader, row: List[int]) -> TroveRow:
    found = TroveRow(*row)
    if found.stake == 0:
        raise reader.fault("a stake is 0")
    return found


def _deposit(reader: _Reader, row: List[int]) -> DepositRow:
    found = DepositRow(*row)
    if found.p == 0:
        raise reader.fault("a product is 0")
    return found


def _kept(reader: _Reader, row: List[int]) -> KeptReply:
    last, kind, *values = row
    if not 1 <= kind <= len(KINDS):
        raise reader.fault("a reply is that of no verb")
    return KeptReply(last, KINDS[kind - 1], tuple(values))


# ---- bytes


def is_open(data: bytes) -> bool:
    """Whether a file holds a journal: its gate is open, and there are as many bytes as the shorter header has."""
    return len(data) >= 57 and data[0] == 1


def holds_journal(folder: Folder) -> bool:
    """Whether one of the folder's files holds a journal. Where none does, liq begins a new market."""
    for path in files_of(folder):
        with open_file(path) as file:
            if is_open(file.read(57)):
                settle(file)
                return True
    return False


def files_of(folder: Folder) -> List[Path]:
    """Those of a market's two files that are there, whatever they are."""
    return [path for path in (Path(folder, f"{side}.liq") for side in SIDES) if path.exists()]


def open_file(path: Folder) -> BinaryIO:
    """A regular file, opened to be read. It never waits, as for the writer of a pipe: what is none is refused."""
    descriptor = os.open(path, os.O_RDONLY | os.O_NONBLOCK | os.O_NOCTTY)
    if not stat.S_ISREG(os.fstat(descriptor).st_mode):
        os.close(descriptor)
        raise NoRegularFile(path)
    return open(descriptor, "rb", buffering=0)


def settle(file: BinaryIO) -> None:
    """Waits until what was read of a file is on its disk: no loss of power takes it back then. What can't be synced is
    let through; where a sync fails, that is an OSError, and nothing may be said of what was read."""
    try:
        os.fsync(file.fileno())
    except OSError as fault:
        if fault.errno != errno.EINVAL:
            raise


def sync(path: Folder) -> None:
    """Waits until a file, or the names in a folder, are on the disk."""
    descriptor = os.open(path, os.O_RDONLY)
    try:
        os.fsync(descriptor)
    finally:
        os.close(descriptor)


def pieces_of(path: Folder, most: int = BYTES_MOST) -> Iterator[bytes]:
    """A regular file's bytes, piece by piece, settled behind the last one. More than `most` are refused before any is
    given, by the length that the file states; or, where it grows meanwhile or states none, once so many have come."""
    with open_file(path) as file:
        left = most
        fits = os.fstat(file.fileno()).st_size <= most
        while fits:
            piece = file.read(min(PIECE_BYTES, left + 1))
            if not piece:
                settle(file)
                return
            left -= len(piece)
            fits = left >= 0
            if fits:
                yield piece
        raise TooMuch(f"{path} has", most, "bytes")


def read_file(path: Folder, most: int = BYTES_MOST) -> bytes:
    """A regular file's bytes, of which there may be at most `most`."""
    return b"".join(pieces_of(path, most))


def copy_file(path: Folder, to: Folder, most: int = BYTES_MOST) -> int:
    """Copies a regular file of at most `most` bytes to a place where nothing is, and gives how many they are.

    The copy is its owner's alone, as liq makes its files. Where the copying ends early no copy is left."""
    count = 0
    with open(os.open(to, os.O_WRONLY | os.O_CREAT | os.O_EXCL, 0o600), "wb") as copy:
        try:
            for piece in pieces_of(path, most):
                count += copy.write(piece)
            copy.flush()
        except BaseException:
            os.unlink(to)
            raise
    return count


def read_command(data: bytes) -> Optional[Command]:
    """A command of its 96 bytes; None where they are none, or a rotation, which is no record."""
    kind, client, number, *fields = COMMAND.unpack(data)
    if not 1 <= kind < len(KINDS) or data[1:4] != bytes(3) or data[72:] != bytes(24):
        return None
    verb = KINDS[kind - 1]
    found: Dict[str, Tuple[int, ...]] = {}
    for letter, size in FIELDS.items():
        here, fields = fields[:size], fields[size:]
        used = VERBS[verb].count(letter)
        if any(here[used:]):
            return None
        found[letter] = tuple(here[:used])
    hints = tuple(None if hint == NO_HINT else hint for hint in found["h"])
    return Command(client, number, verb, found["a"], found["v"], hints)
