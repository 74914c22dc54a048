"""A copy of a market that has all that was answered before it began, also while liq runs and rotates.

usage: python3 -m liq.backup [--quick] [--json] FOLDER DIR

Both files are copied into the folder DIR, which is made, or is there and empty. A rotation writes over one of the
files: where one came between, all is copied again. The copies are synced, and a copy of them, made for this alone, is
opened by `liq state`. Its line `journal GENERATION RECORDS` is written: how many commands the copy has. Where it has
two generations, the commands of the older one have to lead to the newer one, as in `liq.guard`; with --quick each
client's last number alone.

It ends with 0; with 1 where nothing was copied, and then DIR is as it was, or where liq does not open what was copied,
or its files are of two markets; with 2 where the words are not understood.
"""
import contextlib
import hashlib
import os
import sys
import time
from pathlib import Path
from typing import Any, BinaryIO, Dict, Iterable, Iterator, List, Optional

from .console import add_forms, as_json, as_process, ended, parser_of, refused
from .ends import Folder, NoJournal, NotBuilt, TooMuch, Unfit
from .errors import LiqError
from .journal import BYTES_MOST, FRONT_BYTES, HEADER_BYTES, RECORD_BYTES
from .journal import files_of, is_open, open_file, pieces_of, settle, sync
from .linked import apart
from .progress import Bar
from .scratch import bounded, scratch
from .service import find_program
from .words import State, state

LARGEST = 2**30  # bytes of a file: more than a full journal behind a checkpoint in which each account has everything
AT_ONCE_MOST = 2**26  # bytes of both files, which are read before they are written: that takes the shortest time
SECONDS = 60
DAY = 24 * 60 * 60
EXAMPLES = """
python3 -m liq.backup /var/lib/liq/market /backup/monday
python3 -m liq.backup --json market copy | jq .records
"""


class NotEmpty(Unfit):
    """The folder for the copy has something in it. Nothing was copied."""

    def __init__(self, to: Folder) -> None:
        super().__init__(to)
        self.to = Path(to)

    def __str__(self) -> str:
        return f"{self.to} has something in it, and a copy wants a folder of its own"


class Rotating(Unfit):
    """A rotation came between, again and again. Nothing was copied."""

    def __init__(self, folder: Folder) -> None:
        super().__init__(folder)
        self.folder = Path(folder)

    def __str__(self) -> str:
        return f"{self.folder} was rotated during each copy, for {SECONDS} seconds: copy it when nobody rotates"


def backup(folder: Folder, to: Folder, most: int = BYTES_MOST, bar: Optional[Bar] = None) -> None:
    """Copies both files, each of at most `most` bytes, into a new folder or an empty one, and syncs them. The bar
    counts bytes.

    The copy has each command that was answered before the call, whatever a running liq does meanwhile. Raises
    `NoJournal` where liq would begin a new market, `NotEmpty`, `Rotating`, `TooMuch` or `NoRegularFile`; then the
    folder `to` is as it was.
    """
    to = Path(to)
    is_new = not to.exists()
    if is_new:
        to.mkdir(0o700)
    elif any(to.iterdir()):
        raise NotEmpty(to)
    try:
        _copy_unrotated(Path(folder), to, most, bar or Bar())
        for path in (*files_of(to), to):
            sync(path)
        if is_new:
            sync(to.absolute().parent)
    except BaseException:
        _clear(to)
        if is_new:
            to.rmdir()
        raise


def _copy_unrotated(folder: Path, to: Path, most: int, bar: Bar) -> None:
    """Copies both files until no rotation came between."""
    end = time.monotonic() + SECONDS
    while not _copied(folder, to, most, bar):
        if time.monotonic() > end:
            raise Rotating(folder)
    if not any(is_open(front) for front in fronts(files_of(to)).values()):
        raise NoJournal(folder)


def _copied(folder: Path, to: Path, most: int, bar: Bar) -> bool:
    """Copies both files, unless a rotation comes between, and says whether it is done.

    A rotation begins by shutting the gate of the file that it takes, and ends with another header in it. A file's front
    is copied first. Where it is the front still, once all is copied, no rotation took what was copied behind it.
    """
    with contextlib.ExitStack() as opened:
        files = {path: opened.enter_context(open_file(path)) for path in files_of(folder)}
        sizes = {path: size_of(file) for path, file in files.items()}
        for path, size in sizes.items():
            if size > most:
                raise TooMuch(f"{path} has", most, "bytes")
        at_once = sum(sizes.values()) <= AT_ONCE_MOST
        bar.begin("copied", sum(sizes.values()))
        pieces = {path: _pieces(file, sizes[path], bar) for path, file in files.items()}
        copies = {path: list(found) if at_once else _write(to / path.name, found) for path, found in pieces.items()}
        read = {path: found[0][:FRONT_BYTES] if found else b"" for path, found in copies.items()}
        if any(front_of(file) != read[path] for path, file in files.items()):
            _clear(to)
            return False
        for file in files.values():
            settle(file)
        grown = [path.name for path, file in files.items() if size_of(file) > sizes[path]]
    if at_once:
        for path, found in copies.items():
            _write(to / path.name, found)
    for name in grown:
        _shut_last_gate(to / name)
    return True


def _pieces(file: BinaryIO, count: int, bar: Bar) -> Iterator[bytes]:
    """So many bytes of a file. What was added to it since has no part in them."""
    while count:
        piece = file.read(min(count, AT_ONCE_MOST))
        if not piece:
            return
        count -= len(piece)
        bar.add(len(piece))
        yield piece


def _write(path: Path, pieces: Iterable[bytes]) -> List[bytes]:
    """Writes a new file, and gives its front, if it has one."""
    with open(os.open(path, os.O_WRONLY | os.O_CREAT | os.O_EXCL, 0o600), "wb") as copy:
        for piece in pieces:
            copy.write(piece)
    return list(fronts([path]).values())


def _shut_last_gate(path: Path) -> None:
    """Sets the gate behind the last record of a copy to 0. Its record came meanwhile and is not in the copy, and the
    gate may have been copied once it was open."""
    front = fronts([path])[path.name]
    begin = HEADER_BYTES.get(front[1:9], 0) + int.from_bytes(front[17:25], "big")
    with path.open("r+b") as copy:
        behind = copy.seek(0, os.SEEK_END) - begin
        if is_open(front) and behind >= 0:
            copy.seek(begin + behind // RECORD_BYTES * RECORD_BYTES)
            copy.write(b"\0")


def size_of(file: BinaryIO) -> int:
    """How many bytes a file has."""
    return os.fstat(file.fileno()).st_size


def front_of(file: BinaryIO) -> bytes:
    """How a file begins: with its gate, its generation, and the digest of the whole header."""
    file.seek(0)
    return file.read(FRONT_BYTES)


def fronts(paths: Iterable[Path]) -> Dict[str, bytes]:
    """How each of these files begins, by its name."""
    found = {}
    for path in paths:
        with open_file(path) as file:
            found[path.name] = front_of(file)
    return found


def open_copy(folder: Folder, program: Optional[Folder] = None) -> Optional[State]:
    """What `liq state` tells of a copy that is there for this alone: opening may write. None where there is no program:
    none is built for it."""
    if not os.access(find_program(program), os.X_OK):
        return None
    os.environ.setdefault("LIQ_BUILD", "no")
    try:
        return state(folder, program)
    except NotBuilt:
        return None


def _clear(to: Path) -> None:
    for path in files_of(to):
        path.unlink()


def files_told(folder: Path) -> List[Dict[str, Any]]:
    """The files of a folder: their names, how many bytes they have, and the SHA-256 of these."""
    told = []
    for path in files_of(folder):
        found, size = hashlib.sha256(), 0
        for piece in pieces_of(path, LARGEST):
            found.update(piece)
            size += len(piece)
        told.append({"name": path.name, "bytes": size, "sha256": found.hexdigest()})
    return told


def main(words: List[str]) -> int:
    parser = parser_of("backup", __doc__, EXAMPLES)
    parser.add_argument("folder", metavar="FOLDER", help="the market's folder; a run may go on")
    parser.add_argument("to", metavar="DIR", help="for the copy: it is made, or is there and empty")
    parser.add_argument("--quick", action="store_true", help="compare two files by each client's last number alone")
    add_forms(parser)
    asked = parser.parse_args(words)
    return ended("backup", lambda: _told(asked.folder, asked.to, asked.quick, asked.json), asked.json)


def _told(folder: str, to: str, quick: bool, is_json: bool) -> int:
    """Copies, opens a copy of the copy, and tells how many commands it has."""
    with bounded(DAY), Bar() as bar:
        backup(folder, to, LARGEST, bar)
    try:
        with bounded(DAY), scratch(to, "liq-backup") as room, Bar() as bar:
            backup(to, room, LARGEST, bar)
            opened = open_copy(room)
            why = apart(room, LARGEST, quick, bar)
    except (LiqError, OSError) as fault:
        why = f"it does not open: {fault}"
    if why:
        if is_json:
            return refused("backup", f"copied, but {why}", is_json)
        print(f"copied, but {why}")
        return 1
    if is_json:
        generation, records = (opened.generation, opened.records) if opened else (None, None)
        sys.stdout.write(as_json({
            "to": to, "opened": opened is not None, "generation": generation, "records": records,
            "files": files_told(Path(to)),
        }))
    elif opened is None:
        print("copied, and not opened: there is no program (LIQ_PROGRAM, or liq on the PATH)")
    else:
        print(f"journal {opened.generation} {opened.records}")
    return 0


def command() -> int:
    """The command, with the words of its process."""
    return as_process(main)


if __name__ == "__main__":
    sys.exit(command())
