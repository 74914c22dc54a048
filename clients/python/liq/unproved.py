"""The mark of a market that an unproved program wrote: a file `unproved` beside its two files.

In a market's first generation the proved program carries every command out again, and believes nothing. Behind a
rotation it believes the checkpoint. So a market that the rules in Python (`liq.model`) or a program that was only tried
began is marked from its first byte on, and neither of them opens files that have no mark. The mark stays until
`python3 -m liq.guard --adopt-unproved` has compared.

The file has a line that says what it is, and then a name and a value a line: `program`, `commit`, `date` and so on.
"""
import os
import struct
import subprocess
import time
from pathlib import Path
from typing import Dict, Optional

from .ends import Folder, Unfit
from .journal import sync
from .version import __version__

NAME = "unproved"
TITLE = "liq: written by an unproved program"
BYTES_MOST = 10_000
FILES = ("left.liq", "right.liq")
PROVED = b"rattle logic="  # what the section .comment of a program has that was built from proofs
TOP = Path(__file__).resolve().parents[3]


class Unproved(Unfit):
    """An unproved program wrote the market, so a proved one is not put behind it without a look."""

    def __init__(self, folder: Folder) -> None:
        super().__init__(folder)
        self.folder = folder

    def __str__(self) -> str:
        return (
            f"an unproved program wrote the market in {self.folder} (file {NAME}): "
            f"python3 -m liq.guard --adopt-unproved {self.folder} compares it with the proved one"
        )


class Unmarked(Unfit):
    """A market may be a proved program's, since it has no mark. An unproved one opens none of its files."""

    def __init__(self, folder: Folder) -> None:
        super().__init__(folder)
        self.folder = folder

    def __str__(self) -> str:
        place = Path(self.folder).resolve()
        return f"{place} has files of liq and no file {NAME}: an unproved program opens none of them"


def mark_of(folder: Folder) -> Path:
    """Where a market's mark is."""
    return Path(folder, NAME)


def is_marked(folder: Folder) -> bool:
    """Whether a market is marked."""
    return os.path.lexists(mark_of(folder))


def refuse_unproved(folder: Folder) -> None:
    """Raises `Unproved` where a market is marked."""
    if is_marked(folder):
        raise Unproved(folder)


def read_mark(folder: Folder) -> Dict[str, str]:
    """What a mark says, by its names; nothing where it says nothing."""
    with open(mark_of(folder), encoding="utf-8", errors="replace") as file:
        lines = file.read(BYTES_MOST).splitlines()
    return {name: value for name, _, value in (line.partition(" ") for line in lines[1:])}


def admit(folder: Folder, program: str) -> None:
    """Sees to it, before an unproved program opens a market's files, that they are marked: where neither is there the
    mark is made. Raises `Unmarked`."""
    if is_marked(folder):
        return
    if any(os.path.lexists(Path(folder, name)) for name in FILES):
        raise Unmarked(folder)
    make_mark(folder, program)


def make_mark(folder: Folder, program: str) -> None:
    """Writes a mark, synced with its folder: it is there before a file of the market is."""
    said = {"program": program, "commit": commit() or f"release {__version__}", "date": time.strftime("%Y-%m-%d")}
    text = "".join(f"{line}\n" for line in (TITLE, *(f"{name} {value}" for name, value in said.items())))
    descriptor = os.open(mark_of(folder), os.O_WRONLY | os.O_CREAT | os.O_EXCL | os.O_CLOEXEC, 0o600)
    with open(descriptor, "w", encoding="utf-8") as file:
        file.write(text)
        file.flush()
        os.fsync(descriptor)
    sync(folder)


def take_away(folder: Folder) -> None:
    """Takes a mark away, for good."""
    os.unlink(mark_of(folder))
    sync(folder)


def commit() -> Optional[str]:
    """The commit of the checkout in which this package is; None where it is in none."""
    if not (TOP / "crates.txt").is_file():
        return None
    try:
        told = subprocess.run(["git", "-C", str(TOP), "rev-parse", "HEAD"], capture_output=True, text=True, timeout=10)
    except (OSError, subprocess.TimeoutExpired):
        return None
    return told.stdout.strip() or None


def is_proved(program: Folder) -> bool:
    """Whether a program says in its section .comment that it was built from proofs. One that only looks so is somebody's
    lie, not an error."""
    return any(words.startswith(PROVED) for words in comment_of(Path(program).read_bytes()).split(b"\0"))


def comment_of(file: bytes) -> bytes:
    """The section .comment of a little-endian ELF file of 64 bits; nothing where the file has none, or is none."""
    if file[:6] != b"\x7fELF\x02\x01":
        return b""
    try:
        start, = struct.unpack_from("<Q", file, 0x28)
        size, count, of_names = struct.unpack_from("<HHH", file, 0x3A)
        # Of each section: where its name begins, its offset in the file and its size.
        sections = [struct.unpack_from("<I20xQQ", file, start + size * at) for at in range(count)]
        names = sections[of_names][1]
    except (struct.error, IndexError):
        return b""
    for name, offset, length in sections:
        if file.startswith(b".comment\0", names + name):
            return file[offset : offset + length]
    return b""
