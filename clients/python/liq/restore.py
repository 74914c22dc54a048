"""Puts a copy of a market in the place of the one in a folder, and sees to what stands beside it.

usage: python3 -m liq.restore [--older] [--discard] [--dry-run] [--note FILE] [--archive DIR] [--book FILE] [--table FILE]
                              [--leave PART] [--json] COPY FOLDER

COPY is a folder that `liq.backup` made, or what an earlier restore has put aside. FOLDER is there, is the market's own,
and no run holds it. Its owner calls this, or root: then it goes on as the owner. Each step is a line:

1. Both files are copied into FOLDER, beside its own, and synced. The guard finds nothing there, and liq opens them.
2. They take their places. What was there is put aside, in FOLDER/replaced-TIME.
3. Copies of an archive that are of the copy's own generation or of later ones are put aside, in DIR/replaced-TIME.
4. A gateway's book goes on from the copy (`liq.gateway --adopt`). As it was it is BOOK.replaced-TIME.
5. The note of the guard is put aside, as NOTE.replaced-TIME, and written anew.

Note, book and archive are those beside FOLDER, as the unit of systemd has them: `note`, `book`, or `gateway.book` in
FOLDER, and `archive`; the table of the gateway is /etc/liq/table. What is not there is left out.

It refuses, and leaves all as it was, where a run holds one of the folders, where the guard finds something in the copy or liq
does not open it, where the archive is of another market, and where FOLDER, its note or its archive has commands that
the copy has not: --older says that these may go. Where it is stopped within, call it again with the same words. Until
then the note keeps the guard from a start, and between two files liq itself refuses the folder.

It ends with 0, with 1 where it refuses, and with 2 where its words are not understood.
"""
import contextlib
import fcntl
import json
import os
import pwd
import shutil
import sqlite3
import subprocess
import sys
import time
from argparse import Namespace
from pathlib import Path
from typing import BinaryIO, Dict, Iterator, List, NamedTuple, Optional

from .archive import Kept, archive, kept_in, named_in, said_of, sources
from .backup import DAY, LARGEST, open_copy
from .console import add_forms, as_json, as_process, parser_of, refused
from .ends import End, Folder, Unfit
from .errors import LiqError
from .gateway.book import TITLE, Book
from .guard import BadNote, Held, How, Look, Seen, behind, generation_of, header_rotted, held, judged, look, read_at
from .guard import read_note, stands
from .journal import FRONT_BYTES, RECORD_BYTES, RECORDS_MOST, SIDES, VERBS, Journal, NoRegularFile, files_of, open_file
from .journal import sync
from .progress import Bar
from .reasons import holder
from .scratch import bounded
from .units import counted

FIRST, SECOND = (f"{side}.liq" for side in SIDES)
ROOM = ".restore"  # in the market's folder, for what is on its way into its place and out of it
CLOSED, BACK = "closed", "back"
CLOSED_BYTES = b"\1liq.restore was stopped here. Call it again, with the same words.\n"  # liq calls it damaged
REPLACED = "replaced"
TABLE = Path("/etc/liq/table")
PARTS = ("note", "archive", "book")
COPY_BYTES = 2**20
EXAMPLES = """
python3 -m liq.restore --dry-run /backup/monday /var/lib/liq/market
python3 -m liq.restore --older /backup/monday /var/lib/liq/market
"""


class NotRestored(Unfit):
    """A copy was not brought back."""

    def __init__(self, why: str) -> None:
        super().__init__(why)
        self.why = why

    def __str__(self) -> str:
        return self.why


class Places(NamedTuple):
    """A market's folder, and what stands beside it. None is what is not there, or is left as it is."""

    folder: Path
    note: Optional[Path] = None
    archive: Optional[Path] = None
    book: Optional[Path] = None
    table: Optional[Path] = None


class Wish(NamedTuple):
    """What the operator says: that commands may go which the copy has not, that nothing is kept of what is replaced, and
    that nothing is changed."""

    older: bool = False
    discards: bool = False
    is_dry: bool = False


def restore(copy: Folder, places: Places, wish: Wish = Wish(), bar: Optional[Bar] = None) -> Iterator[str]:
    """Brings a copy back, and gives a line for each step that is done. Raises `NotRestored`, `Held`, `NoRegularFile` and
    OSError; in front of the line of the files' places all is as it was then.

    It is for a process of its own: called by root it goes on as the folder's owner.
    """
    folder, bar = places.folder, bar or Bar()
    check_folder(Path(copy), folder)
    with contextlib.ExitStack() as opened:
        files = {path.name: opened.enter_context(open_file(path)) for path in files_of(copy)}
        become_owner(folder)
        opened.enter_context(alone(folder))
        yield from settle_earlier(folder, wish)
        with held(folder):
            yield from put_in_place(Path(copy), files, places, wish, bar)
    if wish.is_dry:
        return
    if places.archive:
        yield from settle_archive(folder, places.archive, wish, bar)
    if places.book and places.table:
        yield from settle_book(places, places.book, places.table, wish)
    if places.note:
        yield from settle_note(folder, places.note, wish, bar)


def put_in_place(copy: Path, files: Dict[str, BinaryIO], places: Places, wish: Wish, bar: Bar) -> Iterator[str]:
    """Has the copy's files beside those of the folder, looks at all, and has them take their places."""
    folder = places.folder
    room = folder / ROOM
    try:
        room.mkdir(0o700)
        for name, file in files.items():
            bring(file, room / name, bar)
        (room / CLOSED).write_bytes(CLOSED_BYTES)
        found = check_copy_of(room, bar)
        yield from (f"the copy: {line.text}" for line in found.lines)
        opens = opened_by_liq(room)
        for path in room.iterdir():
            sync(path)
        yield f"{copy} is sound, and {opens}: {stands(found)}"
        check_older(found, places, wish)
        check_archive(room, found, places)
        check_book(places)
        if not wish.is_dry:
            swap(folder, room)
    except BaseException:
        clear(folder)
        raise
    if wish.is_dry:
        clear(folder)
        yield "nothing was changed"
    else:
        kept = keep_replaced(folder, wish)
        yield f"{folder} has its two files, {owned(folder)}{kept}"


# ---- who, and what is looked at first


def check_folder(copy: Path, folder: Path) -> None:
    """Raises `NotRestored` where the two folders are not what they have to be."""
    if not folder.is_dir():
        made = f"install -d -m 700 -o USER -g GROUP {folder}"
        raise NotRestored(f"there is no folder {folder}: make it, as that of who runs liq ({made})")
    if not copy.is_dir():
        raise NotRestored(f"there is no folder {copy}")
    if copy.samefile(folder):
        raise NotRestored("the copy is the market's own folder")
    if holder(copy):
        raise NotRestored(f"a run holds {copy}: have liq.backup copy it first")
    links = [path.name for path in (folder / FIRST, folder / SECOND) if path.is_symlink()]
    if links:
        raise NotRestored(f"{folder}, {links[0]}: it is a link. Name the folder that has the files")


def become_owner(folder: Path) -> None:
    """Goes on as the owner of a folder, whose names root does not follow. Raises `NotRestored` where that can't be."""
    found = folder.stat()
    if os.geteuid() == found.st_uid:
        return
    if os.geteuid() != 0:
        raise NotRestored(f"{folder} belongs to user {found.st_uid}: call this as that user, or as root")
    try:
        os.initgroups(pwd.getpwuid(found.st_uid).pw_name, found.st_gid)
    except KeyError:
        os.setgroups([found.st_gid])
    os.setgid(found.st_gid)
    os.setuid(found.st_uid)


@contextlib.contextmanager
def alone(folder: Path) -> Iterator[None]:
    """Holds a folder against another restore."""
    descriptor = os.open(folder, os.O_RDONLY | os.O_DIRECTORY)
    try:
        try:
            fcntl.flock(descriptor, fcntl.LOCK_EX | fcntl.LOCK_NB)
        except BlockingIOError:
            raise Held(folder) from None
        yield
    finally:
        os.close(descriptor)


def bring(file: BinaryIO, to: Path, bar: Bar) -> None:
    """Copies an open file to a place where nothing is. The copy is its owner's alone, as liq makes its files."""
    size = os.fstat(file.fileno()).st_size
    if size > LARGEST:
        raise NotRestored(f"{to.name} of the copy has more than {LARGEST:,} bytes")
    bar.begin(to.name, size)
    with open(os.open(to, os.O_WRONLY | os.O_CREAT | os.O_EXCL, 0o600), "wb") as copy:
        os.fchmod(copy.fileno(), 0o600)
        while size > 0:
            piece = file.read(min(size, COPY_BYTES))
            if not piece:
                break
            copy.write(piece)
            bar.add(len(piece))
            size -= len(piece)
        copy.flush()
        os.fsync(copy.fileno())


def check_copy_of(room: Path, bar: Bar) -> Look:
    """A look of the guard at what is to be brought back. Raises `NotRestored` where it finds something."""
    found = look(room, bar)
    if found.found:
        raise NotRestored(f"the guard finds in the copy: {'; '.join(line.text for line in found.found)}")
    return found


def opened_by_liq(room: Path) -> str:
    """What is said of an opening by liq, which carries out all commands. Raises `NotRestored` where it ends."""
    try:
        opened = open_copy(room)
    except End as end:
        raise NotRestored(f"over the copy {end}") from None
    return "liq opens it" if opened else "was not opened, as there is no program (LIQ_PROGRAM, or liq on the PATH)"


def check_older(found: Look, places: Places, wish: Wish) -> None:
    """Raises `NotRestored` where the copy lacks commands, and nobody has said that they may go."""
    lacking = [] if wish.older else [*lacking_of_files(found, places.folder), *lacking_of_rest(found, places)]
    if lacking:
        raise NotRestored(f"the copy has {stands(found)}, and {'; '.join(lacking)}. --older says that this may go")


def lacking_of_files(found: Look, folder: Path) -> Iterator[str]:
    """What stands in the files of a folder, and not in a copy."""
    own = look(folder)
    counts = generation_of(own.current)
    stood = [seen for seen in own.files if seen.header and (seen.is_open or header_rotted(seen, counts))]
    current = max(stood, key=generation_of, default=None)
    if current is None or current.header is None:
        return
    generation = generation_of(current)
    count = current.records + (current.hidden if current.rotted else 0)
    if current.fault:  # what stood behind the damage may have been as much as there is room for
        count = min((current.size - current.header.begin) // RECORD_BYTES, RECORDS_MOST)
    seen = next((it for it in found.files if it.is_open and generation_of(it) == generation), None)
    if seen is None or seen.records < count:
        yield f"{folder} has generation {generation} with {counted(count, 'record')}"
    elif begin_of(seen, current.records) != begin_of(current, current.records):
        yield f"{folder} has another history, generation {generation} with {counted(count, 'record')}"


def begin_of(seen: Seen, records: int) -> bytes:
    """What counts of a file, up to a record; its gate is left out."""
    with open_file(seen.path) as file:
        return read_at(file, 1, seen.gate_of(records + 1) - 1)


def lacking_of_rest(found: Look, places: Places) -> Iterator[str]:
    """What a note or an archive says of commands that a copy has not."""
    note = read_note(places.note) if places.note else None
    if note and behind(found, note):
        yield f"{places.note} has {note}"
    later = later_in(places.archive, generation_of(found.current)) if places.archive else []
    if later:
        yield f"{places.archive} has generation {later[-1].generation} whole"


def check_archive(room: Path, found: Look, places: Places) -> None:
    """Raises `NotRestored` where an archive is none of the copy's market, or has a gap."""
    if not places.archive:
        return
    generation = generation_of(found.current)
    earlier = [kept for kept in named_in(places.archive) if kept.generation < generation]
    why = "--leave archive leaves it as it is; begin another one then"
    try:
        kept_in(places.archive)
        for source in sources(room, places.archive, earlier)[-2:]:
            source.read(LARGEST)
    except Unfit as fault:
        raise NotRestored(f"the archive {places.archive}: {fault}: {why}") from None
    assert found.current
    for kept in later_in(places.archive, generation)[:1]:
        if kept.generation == generation and not begins_alike(kept.path, found.current):
            raise NotRestored(f"the archive {places.archive} is of another market by {kept.path.name}: {why}")


def begins_alike(path: Path, seen: Seen) -> bool:
    """Whether a copy of a generation has the header of another one, and its first record, where both have one."""
    assert seen.header
    with open_file(path) as file:
        count = seen.header.begin + RECORD_BYTES - 1 if seen.records else FRONT_BYTES - 1
        kept = read_at(file, 1, count)
    with open_file(seen.path) as file:
        own = read_at(file, 1, count)
    shorter = seen.header.bytes - 1
    return kept == own or len(kept) < count and kept[:shorter] == own[:shorter]


def check_book(places: Places) -> None:
    """Raises `NotRestored` where a book can't be adopted: without a table, or while a gateway holds it."""
    if not places.book:
        return
    if not places.table:
        raise NotRestored(f"{places.book} takes the gateway's table: --table FILE, or --leave book")
    try:
        with contextlib.closing(sqlite3.connect(places.book, timeout=0, isolation_level=None)) as base:
            base.execute("BEGIN EXCLUSIVE")
            base.execute("ROLLBACK")
    except sqlite3.Error as fault:
        why = "a gateway holds it: stop it first" if "locked" in str(fault) else str(fault)
        raise NotRestored(f"the book {places.book}: {why}") from None


# ---- the files take their places


def swap(folder: Path, room: Path) -> None:
    """Has the files of the room take their places. At each moment the folder has the market of before, or a file that
    liq and the guard call damaged, or the copy: a mixture of two markets might be opened."""
    kept = room / REPLACED
    kept.mkdir(0o700)
    for name in (FIRST, SECOND):
        if (folder / name).exists():
            os.link(folder / name, kept / name)
    for path in (kept, room):
        sync(path)
    try:
        for name, to in ((CLOSED, FIRST), (SECOND, SECOND), (FIRST, FIRST)):
            os.replace(room / name, folder / to)
            sync(folder)
    except BaseException:
        put_back(folder, room)
        raise


def put_back(folder: Path, room: Path) -> None:
    """Has a folder's own files in their places again, the one last that is closed."""
    for name in (SECOND, FIRST):
        if (room / REPLACED / name).exists():
            with contextlib.suppress(FileNotFoundError):
                os.unlink(room / BACK)
            os.link(room / REPLACED / name, room / BACK)  # a second name, so that this may be stopped and done again
            os.replace(room / BACK, folder / name)
        elif (folder / name).exists():
            os.unlink(folder / name)
        sync(folder)


def settle_earlier(folder: Path, wish: Wish) -> Iterator[str]:
    """Ends what a restore that was killed has left."""
    room = folder / ROOM
    if not room.is_dir():
        return
    if wish.is_dry:
        raise NotRestored(f"an earlier restore of {folder} was stopped: call this without --dry-run")
    if is_closed(folder):
        put_back(folder, room)
        yield f"an earlier restore was stopped between the files: {folder} has its own ones again"
    elif replaced_in(folder):
        yield f"an earlier restore was stopped behind the files{keep_replaced(folder, wish)}"
    clear(folder)


def is_closed(folder: Path) -> bool:
    """Whether a restore was stopped between the files of a folder."""
    own = folder / FIRST
    if not own.is_file():
        return False
    with open_file(own) as file:
        return read_at(file, 0, len(CLOSED_BYTES) + 1) == CLOSED_BYTES


def replaced_in(folder: Path) -> List[Path]:
    """Files that a folder had, and that are in the room alone."""
    kept = [folder / ROOM / REPLACED / name for name in (FIRST, SECOND)]
    return [path for path in kept if path.exists() and not is_own(folder / path.name, path)]


def is_own(own: Path, path: Path) -> bool:
    return own.exists() and own.samefile(path)


def keep_replaced(folder: Path, wish: Wish) -> str:
    """Puts aside what was replaced, unless it is not to be kept, and says where it is."""
    said = ""
    if not wish.discards and replaced_in(folder):
        to = aside(folder / REPLACED)
        os.rename(folder / ROOM / REPLACED, to)
        sync(folder)
        said = f"; those of before are in {to}"
    shutil.rmtree(folder / ROOM)
    return said


def clear(folder: Path) -> None:
    """Removes what was made on the way, unless it has what could not be put back."""
    if not replaced_in(folder):
        shutil.rmtree(folder / ROOM, ignore_errors=True)


def aside(path: Path) -> Path:
    """A name with the time in it, under which nothing is."""
    moment = time.strftime("%Y%m%dT%H%M%SZ", time.gmtime())
    for more in ("", *(f"-{count}" for count in range(2, 1000))):
        to = path.with_name(f"{path.name}-{moment}{more}")
        if not os.path.lexists(to):
            return to
    raise NotRestored(f"{to} is there already")


def owned(folder: Path) -> str:
    """Whose a folder's files are, and with which mode."""
    found = (folder / FIRST).stat()
    try:
        name = pwd.getpwuid(found.st_uid).pw_name
    except KeyError:
        name = str(found.st_uid)
    return f"of user {name}, with mode {found.st_mode & 0o777:o}"


# ---- what stands beside


def later_in(directory: Path, generation: int) -> List[Kept]:
    """The copies of an archive that are of a generation or of later ones: none of them is whole in the market then."""
    return [kept for kept in named_in(directory) if kept.generation >= generation]


def settle_archive(folder: Path, directory: Path, wish: Wish, bar: Bar) -> Iterator[str]:
    """Puts aside the copies of generations that the market has not, and has the archive go on from it."""
    later = later_in(directory, generation_of(look(folder).current))
    if later and wish.discards:
        for kept in later:
            os.unlink(kept.path)
        yield f"{directory}: removed {', '.join(kept.path.name for kept in later)}"
    elif later:
        to = aside(directory / REPLACED)
        to.mkdir(0o700)
        for kept in reversed(later):
            os.rename(kept.path, to / kept.path.name)
        sync(to)
        yield f"{to} has {counted(len(later), 'generation')} that the market has no more"
    sync(directory)
    made = archive(folder, directory, bar)
    yield from said_of(folder, directory, made)


def settle_book(places: Places, book: Path, table: Path, wish: Wish) -> Iterator[str]:
    """Has a gateway's book go on from the market."""
    kept = ""
    if not wish.discards:
        to = aside(book.with_name(f"{book.name}.{REPLACED}"))
        os.close(os.open(to, os.O_WRONLY | os.O_CREAT | os.O_EXCL, 0o600))
        with contextlib.closing(sqlite3.connect(book)) as base, contextlib.closing(sqlite3.connect(to)) as copy:
            base.backup(copy)
        sync(to)
        sync(to.parent)
        kept = f"; as it was it is {to}"
    parted = forget_other_history(places.folder, book)
    words = [sys.executable, "-m", "liq.gateway", str(places.folder), "--table", str(table), "--book", str(book), "--adopt"]
    modules = str(Path(__file__).resolve().parents[1])
    environment = {name: value for name, value in os.environ.items() if not name.startswith("LISTEN_")}
    environment.update(PYTHONPATH=modules, PYTHONDONTWRITEBYTECODE="1")
    done = subprocess.run(
        words, cwd="/", env=environment, stdin=subprocess.DEVNULL, stdout=subprocess.DEVNULL, stderr=subprocess.PIPE, text=True,
    )
    events = [json.loads(line) for line in done.stderr.splitlines() if line.startswith("{")]
    if done.returncode != 0:
        why = events[-1].get("why") if events else done.stderr.strip()
        raise NotRestored(f"the market is brought back, and its book is not: {why}. Call this again, with the same words")
    adopted = [f"of {caller} the keys of another history are forgotten" for caller in parted]
    adopted += [
        f"of {it['caller']} it goes on behind command {it['journal']}, and not {it['book']}"
        for it in events if it["event"] == "adopted"
    ]
    yield f"{book}: {'; '.join(adopted) or 'it has the commands of the market'}{kept}"


def forget_other_history(folder: Path, book: Path) -> List[str]:
    """Has a book forget what it has of commands in whose place the market has others, as behind a copy of before an
    earlier restore: by the numbers alone it would not be told. Gives whose they were."""
    disks = Journal(folder, LARGEST).chain
    stands = {(it.client, it.number): essence(it.call) for disk in disks for it in disk.commands}
    with contextlib.closing(sqlite3.connect(book)) as base:
        noted = base.execute("SELECT client, number, call FROM replies WHERE reply LIKE 'ok%'").fetchall()
        noted += base.execute("SELECT client, number, call FROM slots WHERE number IS NOT NULL").fetchall()
    first: Dict[int, int] = {}
    for client, number, call in noted:
        if stands.get((client, number), essence(call)) != essence(call):
            first[client] = min(number, first.get(client, number))
    parted = []
    if first:
        with contextlib.closing(Book(book)) as opened:
            for client, number in first.items():
                opened.adopt(client, number - 1)
                parted.append(opened.slots[client].caller)
    return parted


def essence(call: str) -> List[str]:
    """The words of a call without its hints."""
    verb, *words = call.split(" ")
    return [verb, *(word for kind, word in zip(VERBS.get(verb, ""), words) if kind != "h")]


def settle_note(folder: Path, note: Path, wish: Wish, bar: Bar) -> Iterator[str]:
    """Writes the guard's note anew."""
    kept = ""
    if note.exists() and wish.discards:
        os.unlink(note)
    elif note.exists():
        to = aside(note.with_name(f"{note.name}.{REPLACED}"))
        os.rename(note, to)
        kept = f"; as it was it is {to.name}"
    found = judged(folder, How(note, bar=bar))
    if found.found:
        raise NotRestored(f"the guard finds: {'; '.join(line.text for line in found.found)}")
    yield f"{note}: it has {stands(found)}{kept}"


# ---- the whole


def places_of(asked: Namespace) -> Places:
    """Where all is: as the words say, or beside the folder where it is there."""
    folder = Path(asked.folder).absolute()
    beside = folder.parent
    note = asked.note or next((path for path in [beside / "note"] if is_note(path)), None)
    directory = asked.archive or next((path for path in [beside / "archive"] if named_in(path)), None)
    books = [folder / "gateway.book", beside / "book"]
    book = asked.book or next((path for path in books if is_book(path)), None)
    table = asked.table or (TABLE if TABLE.exists() else None)
    left = set(asked.leave)
    return Places(
        folder, None if "note" in left else note, None if "archive" in left else directory,
        None if "book" in left else book, table,
    )


def is_note(path: Path) -> bool:
    """Whether it is a note of the guard."""
    try:
        return read_note(path) is not None
    except (BadNote, NoRegularFile):
        return False


def is_book(path: Path) -> bool:
    """Whether it is the book of a gateway, by the number that SQLite keeps at byte 68."""
    if not path.is_file():
        return False
    with open_file(path) as file:
        return read_at(file, 68, 4) == TITLE.to_bytes(4, "big")


def main(words: List[str]) -> int:
    parser = parser_of("restore", __doc__, EXAMPLES)
    parser.add_argument("copy", metavar="COPY", type=Path, help="a folder that liq.backup made")
    parser.add_argument("folder", metavar="FOLDER", type=Path, help="the market's folder, which no run holds")
    parser.add_argument("--older", action="store_true", help="commands that the copy has not may go")
    parser.add_argument("--discard", action="store_true", help="keep nothing of what is replaced")
    parser.add_argument("--dry-run", action="store_true", help="look at all, and change nothing")
    parser.add_argument("--note", metavar="FILE", type=absolute, help="the guard's note; `note` beside FOLDER if left out")
    parser.add_argument("--archive", metavar="DIR", type=absolute, help="the archive; `archive` beside FOLDER if left out")
    parser.add_argument("--book", metavar="FILE", type=absolute, help="the gateway's book; if left out, see above")
    parser.add_argument("--table", metavar="FILE", type=absolute, help=f"the gateway's table; {TABLE} if left out")
    parser.add_argument("--leave", metavar="PART", choices=PARTS, action="append", default=[], help="leave note, archive or book as it is")
    add_forms(parser)
    asked = parser.parse_args(words)
    told: List[str] = []
    try:
        with bounded(DAY), Bar() as bar:
            wish = Wish(asked.older, asked.discard, asked.dry_run)
            for line in restore(asked.copy, places_of(asked), wish, bar):
                told.append(line)
                if not asked.json:
                    print(line, flush=True)
    except (LiqError, OSError, sqlite3.Error) as fault:
        return refused("restore", str(fault), asked.json, told if asked.json else [])
    if asked.json:
        sys.stdout.write(as_json({"copy": str(asked.copy), "folder": str(asked.folder), "done": told}))
    return 0


def absolute(word: str) -> Path:
    """A path that stays where it is when the process goes elsewhere."""
    return Path(word).absolute()


def command() -> int:
    """The command, with the words of its process."""
    return as_process(main)


if __name__ == "__main__":
    sys.exit(command())
