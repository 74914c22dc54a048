"""Copies of what rotations leave behind, so that a market's commands are there from the first one on.

usage: python3 -m liq.archive [--json|--csv] FOLDER DIR

A rotation begins the next generation in the file of the generation before the last. What stands there is gone then.
This copies the file that the last rotation left behind into the folder DIR, which is made where it is missing; also one
whose gate was shut by a rotation that was stopped as it began. The copy has the name GENERATION-SHA256.liq: the
generation, and the SHA-256 of its bytes. These are the file's up to its last record and one byte 0, the shut gate; what
stands behind that in the file has no meaning. A copy is synced, and gets its name only then. liq may run meanwhile;
call it as often as you like, and before each `rotate`.

Before a copy gets its name the model carries out its commands, and the checkpoint with which the next generation begins
has to be what that comes to, to the byte. The same is seen of the copy before it. A copy is a file of its own: a link,
and a second name of the market's own file, are refused, since the next `rotate` would write over such a copy too.

It writes a line for each copy that it makes, and one for what DIR has. It ends with 0; with 1 where DIR and FOLDER are
no history without a gap, or something is damaged or can't be read, and then no `rotate` may be sent; with 2 where the
words are not understood.
"""
import contextlib
import hashlib
import os
import re
import secrets
import sys
import time
from pathlib import Path
from typing import Iterator, List, NamedTuple, Optional, Tuple

from .backup import DAY, LARGEST, SECONDS, fronts
from .console import add_forms, as_csv, as_json, as_process, ended, parser_of
from .ends import Folder, Unfit
from .history import digest_of, read_begin, what_counts
from .journal import FRONT_BYTES, DamagedFile, Disk, files_of, open_file, pieces_of, read_file, read_header, sync
from .linked import Left, check_link, left_in
from .progress import Bar
from .scratch import bounded
from .units import counted
from .unproved import refuse_unproved

EXAMPLES = """
python3 -m liq.archive market archive && echo '9 1 rotate' | (cd market && liq run)
python3 -m liq.archive --csv market archive
"""
KEYS = ("generation", "name", "bytes", "sha256", "made")
NAMED = re.compile("([0-9]{11})-([0-9a-f]{64})[.]liq").fullmatch


class NotArchived(Unfit):
    """What a rotation left behind is in no archive without a gap. Send no `rotate`: it would write over it."""

    def __init__(self, directory: Folder, why: str) -> None:
        super().__init__(directory, why)
        self.directory, self.why = Path(directory), why

    def __str__(self) -> str:
        return f"{self.directory} is no archive of it: {self.why}"


class Differing(Unfit):
    """A copy in an archive is sound, and the market's file has something else of that generation. None is damaged."""

    def __init__(self, copy: Folder, file: Folder, generation: int, goes_on: bool) -> None:
        super().__init__(copy, file, generation, goes_on)
        self.copy, self.file, self.generation, self.goes_on = Path(copy), Path(file), generation, goes_on

    def __str__(self) -> str:
        has = "goes on behind it" if self.goes_on else "has other commands of it"
        return (
            f"generation {self.generation} differs: {self.copy.name} is sound, and {self.file.name} {has}. Where the"
            " market's files count, move that copy away and call this again; where the copy counts, bring back the"
            " files that it was made of"
        )


class Kept(NamedTuple):
    """A copy of a generation that was left behind. `digest` is the SHA-256 of its bytes."""

    generation: int
    path: Path
    digest: str


def archive(folder: Folder, directory: Folder, bar: Optional[Bar] = None) -> List[Kept]:
    """Copies what the last rotation left behind into the folder `directory`, and gives the copies that this call made.

    There is none to make in the first generation, and where it is there already. Raises `NotArchived` where there is a
    gap, where something is damaged, or is of another market: then a further `rotate` would write over what is in no
    archive. Raises `Unproved`, `NoJournal`, `TooMuch`, `NoRegularFile` and OSError besides. It holds no file and
    changes none of the folder, so a run may go on meanwhile.
    """
    folder, directory = Path(folder), Path(directory)
    refuse_unproved(folder)
    end = time.monotonic() + SECONDS
    while True:
        seen = fronts(files_of(folder))
        try:
            return _archived(folder, directory, bar or Bar())
        except (Unfit, OSError) as fault:
            if fronts(files_of(folder)) != seen and time.monotonic() < end:
                continue  # a rotation came between, so that some of what was read is of the one and some of the other
            if isinstance(fault, (DamagedFile, Differing)):
                raise NotArchived(directory, str(fault)) from None
            raise


def kept_in(directory: Folder, named: Optional[List[Kept]] = None) -> List[Kept]:
    """The copies in an archive, oldest first, by their names, or by those that it had when it was `named_in`. Raises
    `NotArchived` where a generation is missing among them, or is there twice."""
    kept = named_in(directory) if named is None else named
    for one, following in zip(kept, kept[1:]):
        if following.generation == one.generation:
            raise NotArchived(directory, f"generation {one.generation} is there twice, and the two are not the same")
        if following.generation != one.generation + 1:
            raise NotArchived(directory, f"generation {one.generation + 1} is missing")
    return kept


def named_in(directory: Folder, folder: Optional[Folder] = None) -> List[Kept]:
    """What has the name of a copy, oldest first; nothing where there is no such folder. Raises `NotArchived` where a
    copy is a link, or a file of the market's `folder`."""
    paths = sorted(Path(directory).iterdir()) if Path(directory).is_dir() else []
    found = [(path, NAMED(path.name)) for path in paths]
    kept = [Kept(int(name[1]), path, name[2]) for path, name in found if name]
    check_own(kept, files_of(folder) if folder is not None else [])
    return kept


def check_own(kept: List[Kept], files: List[Path]) -> None:
    """Raises `NotArchived` where a copy is no file of its own: a link, or one of a market's files by a second name."""
    of_market = {identity(path.stat()) for path in files}
    for copy in kept:
        if copy.path.is_symlink():
            raise NotArchived(copy.path.parent, f"{copy.path.name} is a link, and a copy is a file of its own")
        if identity(copy.path.stat()) in of_market:
            raise NotArchived(copy.path.parent, f"{copy.path.name} is the market's own file, by a second name")


def identity(found: os.stat_result) -> Tuple[int, int]:
    """What tells a file from each other one: its device, and its number there."""
    return found.st_dev, found.st_ino


def read_kept(kept: Kept, most: int = LARGEST) -> Disk:
    """A copy of an archive, whole. Raises `DamagedFile` where its bytes are not those of its name."""
    disk = Disk(kept.path, most)
    if digest_of(disk.data) != kept.digest:
        raise DamagedFile(kept.path, 0, "its bytes are not those of its name")
    if not disk.open or disk.generation != kept.generation or disk.data != what_counts(disk):
        raise DamagedFile(kept.path, 0, "it is not what an archive keeps of a generation")
    return disk


# ---- all generations


class Source(NamedTuple):
    """Where a generation is read: the file, and its copy in the archive, where it has one. One of them may be
    missing."""

    generation: int
    file: Optional[Path]
    kept: Optional[Kept]

    @property
    def path(self) -> Path:
        """What is read of it: the copy, where there is one."""
        path = self.kept.path if self.kept else self.file
        assert path
        return path

    def read(self, most: int = LARGEST) -> Disk:
        """The generation, whole. Raises `DamagedFile`, or `Differing` where the file is not what the archive has."""
        if self.kept is None:
            return Disk(self.path, most)
        disk = read_kept(self.kept, most)
        if self.file is not None:
            check_copy(self.kept, self.file)
        return disk


class Generations:
    """Generations one behind the other, each of which is read when it comes, and each time anew: all at once would take
    much memory. Each file may have `most` bytes."""

    def __init__(self, found: List[Source], most: int = LARGEST) -> None:
        self.found, self.most = found, most

    def __iter__(self) -> Iterator[Disk]:
        return (source.read(self.most) for source in self.found)


def sources(folder: Folder, directory: Optional[Folder] = None, named: Optional[List[Kept]] = None) -> List[Source]:
    """Where the generations of a market are, oldest first and without a gap: in an archive, and in its own folder.

    Without an archive these are one or two. Where the folder is a copy that was taken beside a run, `named` is what the
    archive had before it: what came since may be newer than the copy. Raises `NotArchived` where the archive has a gap,
    or ends before the files begin; `DamagedFile` where a file is of a generation that no rotation leaves there;
    `NoJournal`."""
    left = left_in(Path(folder))
    before, kept = left.generation - 1, []
    if directory is not None:
        if before and not Path(directory).is_dir():
            raise NotArchived(directory, "it is no folder")
        kept = kept_in(directory, named)
        check_reaches(directory, kept, left)
    found = [Source(copy.generation, left.before if copy.generation == before else None, copy) for copy in kept]
    if left.before is not None and before not in [copy.generation for copy in kept]:
        found.append(Source(before, left.before, None))
    return [*found, Source(left.generation, left.current, None)]


# ---- a copy


def _archived(folder: Path, directory: Path, bar: Bar) -> List[Kept]:
    """Makes the copy, where there is one to make. Raises `NotArchived`, `Differing` and `DamagedFile`."""
    left, kept = left_in(folder), kept_in(directory, named_in(directory, folder))
    is_kept = bool(kept) and kept[-1].generation == left.generation - 1
    if left.before is None and not is_kept:
        left = left._replace(before=shut_in(folder, left))
    check_reaches(directory, kept, left)
    if is_kept:
        if left.before is not None:
            check_copy(kept[-1], left.before)
        sync(directory)  # whoever gave the copy its name may have been stopped before that
        return []
    if left.before is None:
        return []
    disk = read_left(left.before)
    if kept:
        check_link(read_kept(kept[-1]), disk, bar)
    check_link(disk, read_begin(left.current, LARGEST), bar)
    return [_keep(disk, directory)]


def shut_in(folder: Path, left: Left) -> Optional[Path]:
    """The file that has the generation before the current one whole behind a shut gate: a rotation that was stopped as
    it began leaves that, and the next one writes over it."""
    for path in files_of(folder):
        with contextlib.suppress(DamagedFile):
            with open_file(path) as file:
                front = file.read(FRONT_BYTES)
            if read_header(path, front, path.stat().st_size).generation == left.generation - 1:
                check_link(read_left(path), read_begin(left.current, LARGEST))
                return path
    return None


def read_left(path: Path) -> Disk:
    """What a rotation left behind, whatever the gate in front of it is: a rotation begins by shutting it."""
    return Disk(path, data=b"\1" + read_file(path, LARGEST)[1:])


def check_reaches(directory: Folder, kept: List[Kept], left: Left) -> None:
    """Raises `NotArchived` where an archive ends before the files of a folder begin, or goes on behind them."""
    last, before = kept[-1].generation if kept else left.generation - 1, left.generation - 1
    if last > before:
        why = f"it has generation {last}, and the files are of generation {left.generation}, so they are older"
        raise NotArchived(directory, why)
    if last < before - (left.before is not None):
        raise NotArchived(directory, f"generation {last + 1} is missing, and it is on no file")


def check_copy(kept: Kept, path: Path) -> None:
    """Raises `DamagedFile` where a copy's bytes are not those of its name, and `Differing` where they are not what
    counts in a file."""
    end = kept.path.stat().st_size - 1
    copied, found, at, gate = hashlib.sha256(), hashlib.sha256(), 0, b""
    for piece in pieces_of(kept.path, LARGEST):
        copied.update(piece)
    if copied.hexdigest() != kept.digest:
        raise DamagedFile(kept.path, 0, "its bytes are not those of its name")
    for piece in pieces_of(path, LARGEST):
        found.update(piece[: max(0, end - at)])
        gate = gate or piece[max(0, end - at) :][:1]
        at += len(piece)
    found.update(b"\0")
    if gate == b"\1" or found.hexdigest() != kept.digest:
        raise Differing(kept.path, path, kept.generation, found.hexdigest() == kept.digest)


def _keep(disk: Disk, directory: Path) -> Kept:
    """Writes a copy under a name of its own, syncs it, and gives it its name."""
    data = what_counts(disk)
    digest = digest_of(data)
    to = directory / f"{disk.generation:011}-{digest}.liq"
    make_folder(directory.absolute())
    part = directory / f".{to.name}.{secrets.token_hex(8)}"
    try:
        with open(os.open(part, os.O_WRONLY | os.O_CREAT | os.O_EXCL, 0o600), "wb") as file:
            file.write(data)
            file.flush()
            os.fsync(file.fileno())
        os.replace(part, to)
    except BaseException:
        with contextlib.suppress(OSError):
            part.unlink()
        raise
    sync(directory)
    return Kept(disk.generation, to, digest)


def make_folder(folder: Path) -> None:
    """Makes a folder where it is missing, and those above it, and syncs the name of each."""
    if not folder.exists():
        make_folder(folder.parent)
        folder.mkdir(0o700, exist_ok=True)
        sync(folder.parent)


# ---- the whole


def said_of(folder: Path, directory: Path, made: List[Kept]) -> List[str]:
    """What was done, and what an archive has."""
    kept, generation = kept_in(directory), left_in(folder).generation
    said = [f"generation {copy.generation}: {copy.path.name}" for copy in made]
    if not kept and generation > 1:
        return [f"generation {generation - 1} is on no file: the next rotation leaves generation {generation} behind"]
    if not kept:
        return ["no rotation has left anything behind"]
    first = kept[0].generation
    begins = "from the first generation on" if first == 1 else f"from generation {first} on; those before it are gone"
    return said + [f"{directory} has {counted(len(kept), 'generation')}, {begins}"]


def rows_told(directory: Path, made: List[Kept]) -> List[Tuple[int, str, int, str, bool]]:
    """What an archive has: a row for each copy, under `KEYS`. The last one says whether this call made it."""
    names = {copy.path.name for copy in made}
    return [
        (kept.generation, kept.path.name, kept.path.stat().st_size, kept.digest, kept.path.name in names)
        for kept in kept_in(directory)
    ]


def main(words: List[str]) -> int:
    parser = parser_of("archive", __doc__, EXAMPLES)
    parser.add_argument("folder", metavar="FOLDER", help="the market's folder; a run may go on")
    parser.add_argument("directory", metavar="DIR", help="the archive, which is made where it is missing")
    add_forms(parser, rows=True)
    asked = parser.parse_args(words)
    folder, directory = Path(asked.folder), Path(asked.directory)

    def tell() -> int:
        with bounded(DAY), Bar() as bar:
            made = archive(folder, directory, bar)
            said, rows = said_of(folder, directory, made), rows_told(directory, made)
        if asked.json:
            sys.stdout.write(as_json({"generations": [dict(zip(KEYS, row)) for row in rows], "said": said[-1]}))
        elif asked.csv:
            sys.stdout.write(as_csv(KEYS, ((*row[:4], "yes" if row[4] else "no") for row in rows)))
        else:
            sys.stdout.write("".join(f"{line}\n" for line in said))
        return 0

    return ended("archive", tell, asked.json)


def command() -> int:
    """The command, with the words of its process."""
    return as_process(main)


if __name__ == "__main__":
    sys.exit(command())
