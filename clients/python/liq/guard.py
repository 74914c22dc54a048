"""A look at a market's files before a run: what liq would take for the market, and what stands behind its end.

usage: python3 -m liq.guard [--note FILE [--accept]] [--quick] [--mend [--answered] [--dry-run]] [--json] FOLDER
       python3 -m liq.guard --adopt-unproved FOLDER

One byte in front of each record, and one in front of the header, is a gate: 1 says that what follows counts. No digest
is over it. Where it is another byte, liq takes what follows for nothing, goes on from there, and writes over it. So a
gate that rotted loses commands without a word. The guard looks for whole records, and for a whole header, behind a gate
that is shut.

Beside the file that counts stands the one of the generation before. The model of the rules carries out its commands,
and what they lead to has to be the checkpoint with which the newer one begins: else one of the two is of another
market, or of a copy that went on by itself.

Each finding is a line. A stop leaves a shut gate too: in front of one record, or of a generation that was being made,
which was not answered. A line says so, and is no finding. The guard ends with 0 where it finds nothing, with 1 where it
finds something or can't look, and with 2 where the words are not understood. It changes nothing, but for:

--note FILE  compares with what FILE holds of an earlier look: generation, records, the digest of the last one, and a
             SHA-256 over all that counted. A market that stands behind that, or that has other bytes there, is a
             finding. Where nothing is found the note is written anew, or made; two files that belonged together are
             not carried out again.
--accept     with --note: writes the note over what was found, and looks once more. For whoever has read each line.
--quick      compares each client's last number alone in place of carrying out commands. A copy of the same market that
             went on with as many commands of each client passes.
--mend       opens the gates that rotted, one byte each: on a copy first. It says what comes back, and has liq open the
             copy. Where that is sound it writes to the files, unless a run holds them.
--answered   with --mend: opens also what a stop may have left, for whoever knows that it was answered.
--dry-run    with --mend: leaves it at the copy.

A market that an unproved program wrote has a file `unproved` beside it, which is a finding. With --adopt-unproved the
proved program carries all its commands out again, on a copy; where it comes to what the rules in Python come to, the
file is taken away. Behind a rotation that is refused.
"""
import contextlib
import errno
import fcntl
import hashlib
import os
import sys
from argparse import Namespace
from pathlib import Path
from typing import BinaryIO, Iterator, List, NamedTuple, Optional, Set, Tuple

from .backup import DAY, LARGEST, fronts, open_copy
from .console import add_forms, as_json, as_process, ended, parser_of
from .ends import End, Folder, TooMuch, Unfit
from .journal import FRONT_BYTES, KINDS, PIECE_BYTES, RECORD_BYTES, SIDES
from .journal import DamagedFile, Header, copy_file, files_of, open_file, read_checkpoint, read_command, read_header
from .journal import settle, sync
from .linked import APART, CLIENT_AND_NUMBER, last_numbers, unlinked
from .own import check_own
from .progress import Bar
from .reasons import distrusted
from .scratch import bounded, scratch
from .service import find_program
from .units import counted
from .unproved import Unproved, is_marked, is_proved

RECORDS_READ = 1_000_001  # the gate behind a full journal's last record is that of this one, and liq reads no further
RECORDS_AT_ONCE = 8128
TRIES = 100
NOTE_TITLE = "liq.guard 2: what counted at an earlier look, and the older file that leads to it"
OLD_TITLE = "liq.guard: generation, records, and the digest of the last record, or of the header where there is none"
NOTE_BYTES_MOST = 1000
CLIENTS_NOTED = 8  # those with the greatest numbers: what a market that was rotated twice is known by
EXAMPLES = """
python3 -m liq.guard --note /var/lib/liq/note /var/lib/liq/market && echo start
python3 -m liq.guard --mend --dry-run market
python3 -m liq.guard --json market | jq -r .findings[]
"""


class Held(Unfit):
    """A run holds a file."""

    def __init__(self, path: Folder) -> None:
        super().__init__(path)
        self.path = Path(path)

    def __str__(self) -> str:
        return f"a run holds {self.path}: stop it first"


class BadNote(Unfit):
    """A note is none."""

    def __init__(self, path: Folder) -> None:
        super().__init__(path)
        self.path = Path(path)

    def __str__(self) -> str:
        return f"{self.path} is no note of this program: look at it, and move it away"


class Line(NamedTuple):
    """What the guard says. What a stop leaves is no finding."""

    text: str
    is_finding: bool = True


# ---- one file


class Seen(NamedTuple):
    """What a file has.

    `front` are its first bytes, as many as a header has. `fault` is the first damage, as a record or 0, and why: of the
    header, whatever its gate is, and of a record behind an open gate. `records` are as many as liq counts, and `end` is
    the gate behind them. `whole` counts on from there, to the first record that is not whole, whatever the gates are;
    `shut` are those on the way whose gate is not 1, with that byte. `beyond` are the whole ones behind a gap. `counts`
    is the SHA-256 over the file up to `end`, with a shut gate there; `noted` is the same of as many records as a note
    has of this generation, where so many are there.
    """

    path: Path
    size: int
    front: bytes = b""
    header: Optional[Header] = None
    fault: Optional[Tuple[int, str]] = None
    records: int = 0
    end: Optional[int] = None
    whole: int = 0
    beyond: int = 0
    shut: Tuple[Tuple[int, int], ...] = ()
    counts: str = ""
    noted: str = ""

    @property
    def name(self) -> str:
        return self.path.name

    @property
    def gate(self) -> Optional[int]:
        """The first byte; None where it is empty."""
        return self.front[0] if self.front else None

    @property
    def is_open(self) -> bool:
        """Whether liq takes it for a journal."""
        return self.gate == 1 and self.size >= 57

    @property
    def is_sound(self) -> bool:
        """Whether it is a journal that liq opens, by its bytes."""
        return self.is_open and self.fault is None

    @property
    def hidden(self) -> int:
        """How many whole records stand behind the end."""
        return self.whole - self.records + self.beyond

    @property
    def rotted(self) -> List[int]:
        """The records whose gates no stop leaves shut. A stop leaves a 0 in front of the last whole one."""
        last = self.whole if not self.beyond else 0
        return [record for record, gate in self.shut if gate != 0 or record != last]

    def gate_of(self, record: int) -> int:
        """The place of a record's gate."""
        assert self.header
        return self.header.begin + RECORD_BYTES * (record - 1)

    def body_of(self, record: int) -> bytes:
        """A record's 96 bytes and its digest. Raises `DamagedFile` where they are gone since the look."""
        with open_file(self.path) as file:
            body = read_at(file, self.gate_of(record) + 1, RECORD_BYTES - 1)
            settle(file)
        if len(body) < RECORD_BYTES - 1:
            raise DamagedFile(self.path, record, "it was cut short during the look")
        return body

    def digest_of(self, record: int) -> bytes:
        """A record's digest, or the header's where `record` is 0."""
        assert self.header
        return self.body_of(record)[96:] if record else self.header.digest


def look_at(path: Path, bar: Optional[Bar] = None, note: "Optional[Note]" = None) -> Seen:
    """What a regular file has. It is read in pieces, and no further than a journal can reach, and settled before
    anything is said of it."""
    with open_file(path) as file:
        seen = _look_into(file, path, bar or Bar(), note)
        settle(file)
    return seen


def _look_into(file: BinaryIO, path: Path, bar: Bar, note: "Optional[Note]") -> Seen:
    size = os.fstat(file.fileno()).st_size
    seen = Seen(path, size, file.read(FRONT_BYTES))
    if size < 57:
        return seen
    counts = hashlib.sha256(b"\1")
    try:
        header = _read_header(seen, file, counts)
    except DamagedFile as fault:
        return seen._replace(fault=(0, fault.why))
    bar.begin(path.name, (size - header.begin) // RECORD_BYTES)
    noted = note.records if note and note.generation == header.generation else None
    return _read_records(file, seen._replace(header=header), bar, counts, noted)


def _read_header(seen: Seen, file: BinaryIO, counts: "hashlib._Hash") -> Header:
    """The header, whose digest is right. It and the checkpoint count. Raises `DamagedFile`."""
    header = read_header(seen.path, seen.front, seen.size)
    if os.lseek(file.fileno(), 0, os.SEEK_HOLE) < header.begin:  # of 2^36 bytes that are nowhere none is read
        raise DamagedFile(seen.path, 0, "a hole is in its checkpoint")
    counts.update(seen.front[1 : header.bytes])
    digest = hashlib.sha256(header.fields)
    for at in range(header.bytes, header.begin, PIECE_BYTES):
        piece = read_at(file, at, min(PIECE_BYTES, header.begin - at))
        digest.update(piece)
        counts.update(piece)
    if digest.digest() != header.digest:
        raise DamagedFile(seen.path, 0, "its digest is another")
    return header


def _read_records(file: BinaryIO, seen: Seen, bar: Bar, counts: "hashlib._Hash", noted: Optional[int]) -> Seen:
    """The records, and what stands behind them."""
    assert seen.header
    head = seen.header.generation.to_bytes(8, "big")
    records = whole = beyond = index = 0
    shut: List[Tuple[int, int]] = []
    end: Optional[int] = None
    of_note = sum_up_to(counts) if noted == 0 else ""
    is_counting = True
    for piece in _places(file, seen.header.begin):
        index += 1
        if index % RECORDS_AT_ONCE == 0:
            bar.add(RECORDS_AT_ONCE)
        gate = piece[0]
        is_whole = _is_whole(head, index, piece)
        if is_counting and gate == 1 and len(piece) == RECORD_BYTES:
            if not is_whole:
                return seen._replace(fault=(index, "its digest is another"), records=records, whole=records)
            records = whole = index
            counts.update(piece)
            if index == noted:
                of_note = sum_up_to(counts)
            continue
        if is_counting:
            is_counting, end = False, gate
        if is_whole and whole == index - 1:
            whole = index
            if gate != 1:
                shut.append((index, gate))
        elif is_whole:
            beyond += 1
    return seen._replace(
        records=records, end=end, whole=whole, beyond=beyond, shut=tuple(shut), counts=sum_up_to(counts), noted=of_note)


def sum_up_to(counts: "hashlib._Hash") -> str:
    """The SHA-256 over what was counted so far and a shut gate behind it."""
    there = counts.copy()
    there.update(b"\0")
    return there.hexdigest()


def _places(file: BinaryIO, begin: int) -> Iterator[bytes]:
    """The bytes at each record's place, as many as there are."""
    left = RECORDS_READ
    while left:
        count = min(left, RECORDS_AT_ONCE)
        block = read_at(file, begin + RECORD_BYTES * (RECORDS_READ - left), RECORD_BYTES * count)
        for at in range(0, len(block), RECORD_BYTES):
            yield block[at : at + RECORD_BYTES]
        if len(block) < RECORD_BYTES * count:
            return
        left -= count


def _is_whole(head: bytes, index: int, piece: bytes) -> bool:
    """Whether a record of this generation and of this number stands there, whatever its gate is."""
    if len(piece) < RECORD_BYTES or not 1 <= piece[1] < len(KINDS):
        return False
    return hashlib.sha256(head + index.to_bytes(8, "big") + piece[1:97]).digest() == piece[97:]


def read_at(file: BinaryIO, at: int, count: int) -> bytes:
    """So many bytes from a place on, or all that are there."""
    file.seek(at)
    parts = []
    while count:
        part = file.read(count)
        if not part:
            break
        parts.append(part)
        count -= len(part)
    return b"".join(parts)


# ---- what is said of a file

BRING_BACK = "bring back a copy"
MEND = "start no run; see --mend, or bring back a copy"
IF_ANSWERED = "If it was answered, the gate rotted: see --mend --answered"


def said_of_records(seen: Seen, current: Optional[Seen]) -> Iterator[Line]:
    """What stands behind the end of an open journal, which is the current one or the older one."""
    if seen.records == RECORDS_READ:  # these liq refuses
        return
    counts = generation_of(current)
    is_older = generation_of(seen) < counts
    first, gate = seen.records + 1, seen.gate_of(seen.records + 1)
    stand = "1 whole record stands" if seen.hidden == 1 else f"{seen.hidden} whole records stand"
    if seen.end is None or seen.end == 1 and not seen.hidden:
        yield Line(f"{seen.name}: it ends in record {first} or at its gate, at {gate}, and was cut short: {BRING_BACK}")
    elif not seen.hidden and seen.end:
        yield Line(
            f"{seen.name}: the gate behind the last record, at {gate}, is {seen.end}, and liq writes 0 or 1. Nothing"
            " whole stands behind it: see in a copy of yours whether a record is missing"
        )
    elif seen.hidden and seen.whole == seen.records:
        yield Line(
            f"{seen.name}: record {first}, at {gate}, is not whole, and {stand} behind it. No stop leaves that:"
            f" {BRING_BACK}"
        )
    elif seen.rotted:
        lost = f". Generation {counts} counts and lacks nothing: see --mend" if is_older else f": {MEND}"
        yield Line(
            f"{seen.name}: the gate of record {first}, at {gate}, is {seen.end}, and {stand} behind it. No stop leaves"
            f" that{lost}"
        )
    elif seen.hidden:
        command = read_command(seen.body_of(first)[:96])
        line = f", {command.line}" if command else ""
        next_one = f"Generation {counts} counts and lacks nothing" if is_older else IF_ANSWERED
        yield Line(
            f"{seen.name}: behind the shut gate at {gate} stands record {first}{line}. A stop leaves that of a command"
            f" that was not answered. {next_one}",
            is_finding=False,
        )


def said_of_shut(seen: Seen, current: Optional[Seen]) -> Iterator[Line]:
    """What stands behind a gate at place 0 that is not open."""
    if seen.header is None:
        if seen.gate == 1:
            yield Line(f"{seen.name}: it has {counted(seen.size, 'byte')}, and was cut short: {BRING_BACK}")
        elif seen.gate:
            yield Line(
                f"{seen.name}: its first byte is {seen.gate}, and liq writes 0 or 1. No whole header stands behind it:"
                " look what wrote there"
            )
        return
    counts, generation = generation_of(current), seen.header.generation
    stands = f"{seen.name}: behind its first byte, {seen.gate}, stands generation {generation} whole"
    if header_rotted(seen, counts) and generation < counts:
        mends = "see --mend" if seen.gate else "this older file may be moved away"
        yield Line(f"{stands}. No stop leaves that. Generation {counts} counts and lacks nothing: {mends}")
    elif header_rotted(seen, counts):
        beside = f"go on from generation {counts}" if counts else "begin a new market"
        yield Line(
            f"{stands}, with {counted(seen.whole, 'record')}. No stop leaves that, and liq would {beside}: {MEND}"
        )
    elif generation < counts:
        yield Line(
            f"{stands}. A stop as a rotation begins leaves that. Generation {counts} counts and lacks nothing",
            is_finding=False,
        )
    else:
        made = f"a rotation of generation {counts}" if counts else "a new market"
        yield Line(
            f"{stands}, without a record. A stop leaves that of {made} that was not answered. {IF_ANSWERED}",
            is_finding=False,
        )


def header_rotted(seen: Seen, counts: int) -> bool:
    """Whether no stop leaves the gate of this whole header shut, where generation `counts` is open; 0 is for none.

    A stop leaves a 0: in front of the generation before, where a rotation has just begun, and in front of the next one,
    which has no record yet.
    """
    assert seen.header
    is_next = seen.header.generation == counts + 1 and not seen.whole + seen.beyond
    return seen.gate != 0 or not (is_next or seen.header.generation == counts - 1)


def generation_of(current: Optional[Seen]) -> int:
    """The generation that counts; 0 where none does."""
    return current.header.generation if current and current.header else 0


# ---- both files


class Look(NamedTuple):
    """Both files, as far as they can be read, and what is said of them. `current` is the one that counts."""

    folder: Path
    files: List[Seen]
    current: Optional[Seen]
    lines: List[Line]

    @property
    def found(self) -> List[Line]:
        """What no stop leaves."""
        return [line for line in self.lines if line.is_finding]


def look(folder: Folder, bar: Optional[Bar] = None, note: "Optional[Note]" = None) -> Look:
    """Looks at both files. Beside a run they change, so what is said is what two looks say."""
    marked = [Line(str(Unproved(folder)))] if is_marked(folder) else []
    first = _look_unrotated(Path(folder), bar, note)
    if not first.lines:
        return first._replace(lines=marked)
    second = _look_unrotated(Path(folder), bar, note)
    return second._replace(lines=marked + [line for line in second.lines if line in first.lines])


def _look_unrotated(folder: Path, bar: Optional[Bar], note: "Optional[Note]") -> Look:
    """A look in which no rotation took a file behind its front, unless one does each time."""
    for _ in range(TRIES):
        found = _look_once(folder, bar, note)
        if is_unrotated(found):
            break
    return found


def is_unrotated(found: Look) -> bool:
    """Whether both files begin as they did at a look."""
    return fronts(seen.path for seen in found.files) == {seen.name: seen.front for seen in found.files}


def _look_once(folder: Path, bar: Optional[Bar], note: "Optional[Note]") -> Look:
    lines = [Line(found.text) for found in distrusted(folder)]
    files = [look_at(path, bar, note) for path in files_of(folder) if path.is_file()]
    journals = [seen for seen in files if seen.is_open and seen.header]
    current = max(journals, key=generation_of, default=None)
    for seen in files:
        if not seen.is_open:
            lines += said_of_shut(seen, current)
        elif seen.fault:
            lines.append(Line(said_of_damage(seen, current)))
        else:
            lines += said_of_records(seen, current)
    if any(seen.is_open for seen in files):
        lines += missing(folder)
        lines += said_of_beside(files, current)
    elif folder.is_dir():
        lines.append(Line(f"no journal in {folder}: liq would begin a new market there"))
    else:
        lines.append(Line(f"{folder} is no folder: liq can't begin there"))
    return Look(folder, files, current, lines)


def missing(folder: Path) -> Iterator[Line]:
    """A file that is not there beside one that has a journal. liq makes both."""
    for path in (folder / f"{side}.liq" for side in SIDES):
        if not path.exists() and not path.is_symlink():
            yield Line(f"{path.name}: it is missing: {BRING_BACK}, or make an empty file in its place if it was older")


def said_of_beside(files: List[Seen], current: Optional[Seen]) -> Iterator[Line]:
    """A file beside the current one that no rotation leaves there."""
    counts = generation_of(current)
    for seen in files:
        if seen.size == 0 and counts > 1:
            yield Line(
                f"{seen.name}: it is empty beside generation {counts}, so generation {counts - 1} is on no file."
                " The next rotation takes it",
                is_finding=False,
            )
        elif seen.is_open and seen.header and generation_of(seen) < counts - 1:
            yield Line(
                f"{seen.name}: it is of generation {generation_of(seen)}, and beside generation {counts} a rotation"
                f" leaves {counts - 1}; {APART}"
            )


def said_of_damage(seen: Seen, current: Optional[Seen]) -> str:
    """What is said of a file that liq calls damaged."""
    assert seen.fault
    record, why = seen.fault
    said = f"{seen.name}: it is damaged at {record}: {why}"
    if seen.header and current and current is not seen and current.is_sound and current.header:
        counts = current.header.generation
        return f"{said}. Generation {counts}, in {current.name}, counts and is sound: this older file may be moved away"
    return f"{said}: bring back a copy"


# ---- a note of an earlier look


class Note(NamedTuple):
    """What was there at an earlier look. `counts` is the SHA-256 over the records and all in front of them; `before` is
    that of the older file, where its commands lead to this generation; `numbers` are the last ones of some clients. An
    old note has none of these."""

    generation: int
    records: int
    digest: str
    counts: str = ""
    before: str = ""
    numbers: Tuple[Tuple[int, int], ...] = ()

    @property
    def text(self) -> str:
        rows = f"generation {self.generation}\nrecords {self.records}\ndigest {self.digest}\n"
        if not self.counts:
            return f"{OLD_TITLE}\n{rows}"
        numbers = ",".join(f"{client}:{number}" for client, number in self.numbers)
        return f"{NOTE_TITLE}\n{rows}sha256 {self.counts}\nbefore {self.before or '-'}\nnumbers {numbers or '-'}\n"

    def __str__(self) -> str:
        return f"generation {self.generation} with {counted(self.records, 'record')}"


def note_of(found: Look, before: str = "") -> Note:
    """The note of a market that was looked at, in which the older file with the sum `before` leads to the newer."""
    current = found.current
    assert current and current.header
    digest = current.digest_of(current.records).hex()
    numbers = last_numbers(current.path, LARGEST, current.records)
    greatest = sorted(numbers.items(), key=lambda row: (-row[1], row[0]))[:CLIENTS_NOTED]
    return Note(current.header.generation, current.records, digest, current.counts, before, tuple(greatest))


def read_note(path: Folder) -> Optional[Note]:
    """A note; None where there is none yet. Root takes it for that of the folder's owner."""
    try:
        check_own(path, Path(path).absolute().parent.stat().st_uid if os.geteuid() == 0 else None)
        with open_file(path) as file:
            text = file.read(NOTE_BYTES_MOST).decode("ascii", "replace")
    except FileNotFoundError:
        return None
    try:
        words = [line.split(" ")[1].strip("-") for line in text.splitlines()[1:]]
        counts, before, rows = words[3:] or ("", "", "")
        pairs = (row.split(":") for row in rows.split(",") if row)
        numbers = tuple((int(client), int(number)) for client, number in pairs)
        note = Note(int(words[0]), int(words[1]), words[2], counts, before, numbers)
    except (IndexError, ValueError):
        raise BadNote(path) from None
    if note.text != text:
        raise BadNote(path)
    return note


def write_note(path: Folder, note: Note) -> None:
    """Writes a note, whole or not at all."""
    path = Path(path)
    beside = path.with_name(f".{path.name}.{os.getpid()}")
    try:
        with open(os.open(beside, os.O_WRONLY | os.O_CREAT | os.O_EXCL, 0o600), "w") as file:
            file.write(note.text)
            file.flush()
            os.fsync(file.fileno())
        os.replace(beside, path)
    except BaseException:
        with contextlib.suppress(OSError):
            beside.unlink()
        raise
    sync(path.absolute().parent)


def behind(found: Look, note: Note) -> Optional[str]:
    """How a market stands behind a note; None where it goes on from it, or where that can't be told any more."""
    seen = noted_file(found, note)
    if lacks(found, note):
        has = f"generation {generation_of(found.current)}" if found.current else "no journal"
        has = f"{counted(seen.records, 'record')} of it" if seen else has
        return f"behind the note: it has {note}, and the folder {has}"
    if seen and seen.digest_of(note.records).hex() != note.digest:
        what = f"record {note.records}" if note.records else "the header"
        return f"another history: {what} of generation {note.generation} is not that of the note"
    if seen and note.counts and seen.noted != note.counts:
        return f"another history: what stands in front of it in generation {note.generation} is not that of the note"
    if seen is None and note.numbers:
        assert found.current
        now = last_numbers(found.current.path, LARGEST)
        for client, number in note.numbers:
            if now.get(client, 0) < number:
                return f"another history: client {client}'s last number is {now.get(client, 0)}, and it was {number}"
    return None


def lacks(found: Look, note: Note) -> bool:
    """Whether a market has less than a note."""
    seen = noted_file(found, note)
    return seen.records < note.records if seen else generation_of(found.current) <= note.generation


def noted_file(found: Look, note: Note) -> Optional[Seen]:
    """The journal of a note's generation; None where it is on no file."""
    return next((seen for seen in found.files if seen.is_open and generation_of(seen) == note.generation), None)


# ---- gates that are opened again


class Gate(NamedTuple):
    """A gate that is opened."""

    path: Path
    place: int


def gates_to_open(found: Look, answered: bool) -> List[Gate]:
    """The gates that rotted; with `answered` also those that a stop may have left. The one in front comes last, so that
    nothing counts before all is open. Raises `Parted` where that would hide commands."""
    counts = generation_of(found.current)
    gates: List[Gate] = []
    for seen in found.files:
        if seen.header is None or seen.fault:
            continue
        generation = seen.header.generation
        inner = [record for record, _ in seen.shut] if answered and generation >= counts else seen.rotted
        places = [seen.gate_of(record) for record in reversed(inner)]
        if not seen.is_open:
            if seen.gate == 0 and generation < counts or not (answered or header_rotted(seen, counts)):
                continue
            if found.current and generation > counts and went_on(found.current, seen):
                raise Parted(counts, generation)
            places.append(0)
        gates += [Gate(seen.path, place) for place in places]
    return gates


class Parted(Unfit):
    """An older generation went on while the gate of the newer one was shut. Each has what the other doesn't."""

    def __init__(self, older: int, newer: int) -> None:
        super().__init__(older, newer)
        self.older, self.newer = older, newer

    def __str__(self) -> str:
        return (
            f"generation {self.older} took commands while generation {self.newer} was shut, and they would be hidden."
            " Copy both files, and decide which of the two shall count"
        )


def went_on(older: Seen, newer: Seen) -> bool:
    """Whether a generation has commands that the checkpoint of a newer one has not seen."""
    assert older.header and newer.header
    if newer.header.begin > LARGEST:
        raise TooMuch(f"the checkpoint of {newer.path} has", LARGEST, "bytes")
    with open_file(newer.path) as file:
        data = read_at(file, newer.header.bytes, newer.header.begin - newer.header.bytes)
    checkpoint = read_checkpoint(newer.path, data, newer.header.bytes)
    assert checkpoint
    with open_file(older.path) as file:
        for index, piece in enumerate(_places(file, older.header.begin), 1):
            if index > older.records:
                return False
            client, number = CLIENT_AND_NUMBER.unpack_from(piece, 1)
            kept = checkpoint.clients.get(client)
            if kept is None or number > kept.last:
                return True
            if number == kept.last and kept.verb == "rotate" and kept.values[0] == newer.header.generation:
                return True
    return False


def mend(found: Look, gates: List[Gate], writes: bool) -> Iterator[str]:
    """Opens gates on a copy, and says what comes back; where that is sound, and it `writes`, also on the files."""
    with scratch(found.folder, "liq-guard") as room:
        for path in files_of(found.folder):
            copy_file(path, room / path.name, LARGEST)
        for gate in gates:
            open_gate(Gate(room / gate.path.name, gate.place))
        copy = look(room)
        copy.lines.extend(linked_before(copy, None, False, None)[0])
        yield f"a copy with the gates open has {stands(copy)}, and the files have {stands(found)}"
        mended: Set[str] = {gate.path.name for gate in gates}
        is_apart = any(line.text.endswith(APART) for line in copy.found)
        if is_apart or any(seen.fault or seen.rotted or seen.beyond for seen in copy.files if seen.name in mended):
            yield from (line.text for line in copy.found)
            yield f"so it is not sound, and nothing was written: {BRING_BACK}"
            return
        try:
            opened = open_copy(room)
        except End as end:
            yield f"over it {end}, and nothing was written: {BRING_BACK}"
            return
    if opened:
        yield f"liq opens it: journal {opened.generation} {opened.records}"
    else:
        yield "it was read, and not opened: there is no program (LIQ_PROGRAM, or liq on the PATH)"
    if not writes:
        yield "nothing was written"
        return
    for gate in gates:
        open_gate(gate)
        yield f"{gate.path.name}: the gate at {gate.place} is open"


def stands(found: Look) -> str:
    """What counts."""
    return f"journal {generation_of(found.current)} {found.current.records}" if found.current else "no journal"


def open_gate(gate: Gate) -> None:
    """Writes the one byte, and syncs."""
    descriptor = os.open(gate.path, os.O_WRONLY)
    try:
        os.pwrite(descriptor, b"\1", gate.place)
        os.fsync(descriptor)
    finally:
        os.close(descriptor)


@contextlib.contextmanager
def held(folder: Folder) -> Iterator[None]:
    """Holds both files against a run, as a run holds them against another. Where there are no locks nothing is held."""
    with contextlib.ExitStack() as files:
        for path in files_of(folder):
            file = files.enter_context(open_file(path))
            try:
                fcntl.flock(file, fcntl.LOCK_EX | fcntl.LOCK_NB)
            except BlockingIOError:
                raise Held(path) from None
            except OSError as fault:
                if fault.errno not in (errno.ENOTSUP, errno.EOPNOTSUPP):
                    raise
        yield


# ---- two files of one market


def older_of(found: Look) -> Optional[Seen]:
    """The file of the generation before the current one, where both are sound; None where there is none."""
    counts = generation_of(found.current)
    if not found.current or not found.current.is_sound:
        return None
    return next((seen for seen in found.files if seen.is_sound and generation_of(seen) == counts - 1), None)


def linked_before(found: Look, note: Optional[Note], quick: bool, bar: Optional[Bar]) -> Tuple[List[Line], str]:
    """What is said of a market whose older file does not lead to the newer one; and the sum of the older file, where it
    does. What a note has of both is not carried out again."""
    older = older_of(found)
    if older is None:
        return [], ""
    if note and note.before == older.counts and noted_file(found, note) is found.current and not behind(found, note):
        return [], note.before
    assert found.current
    why = unlinked(older.path, found.current.path, LARGEST, quick, bar)
    return ([Line(why)], "") if why else ([], "" if quick else older.counts)


# ---- the whole


class How(NamedTuple):
    """How a look is made: compared with a note, which is accepted where that is asked for; quickly; with a bar."""

    note: Optional[Folder] = None
    accept: bool = False
    quick: bool = False
    bar: Optional[Bar] = None


def guard(folder: Folder, note: Optional[Folder] = None) -> List[Line]:
    """What is said of a market (`judged`)."""
    return judged(folder, How(note)).lines


def judged(folder: Folder, how: How = How()) -> Look:
    """A look at a market. A note is compared, and written anew where nothing is found, or where that is accepted. It is
    read before the look, since another guard may write a newer one meanwhile."""
    noted, lines = None, []
    if how.note is not None:
        try:
            noted = read_note(how.note)
        except (Unfit, OSError) as fault:
            lines.append(Line(f"the note: {fault}"))
    for _ in range(TRIES):
        found = look(folder, how.bar, noted)
        apart, before = linked_before(found, noted, how.quick, how.bar)
        if is_unrotated(found):
            break
    found = found._replace(lines=found.lines + apart + lines)
    if how.note is None or lines and not how.accept:
        return found
    return found._replace(lines=found.lines + list(compared(found, how, noted, before)))


def compared(found: Look, how: How, note: Optional[Note], before: str) -> Iterator[Line]:
    """What is said of a market beside a note, which is written anew where nothing is found."""
    assert how.note is not None
    try:
        why = behind(found, note) if note else None
        if why:
            yield Line(why)
        if found.current and (how.accept or not why and not found.found):
            if note and not why and not noted_file(found, note):
                gone = f"the note has {note}, which later rotations wrote over: it can't be compared"
                yield Line(gone, is_finding=False)
            if note and not note.counts:
                form = "the note is of an older form, with one record's digest alone: it gets a sum over all"
                yield Line(form, is_finding=False)
            older = older_of(found)
            if how.quick and older and not before and not how.accept:
                stays = "the note stays: a quick look doesn't show that both files belong together"
                yield Line(stays, is_finding=False)
            elif how.accept or read_note(how.note) == note:  # else another guard has written one meanwhile, which stays
                write_note(how.note, note_of(found, older.counts if how.accept and older else before))
    except (Unfit, OSError) as fault:
        yield Line(f"the note: {fault}")


def mended(folder: Folder, note: Optional[Folder], answered: bool, writes: bool) -> Iterator[str]:
    """Opens gates again, and says what is done."""
    with held(folder):
        found = look(folder)
        noted = read_note(note) if note is not None else None
        gates = gates_to_open(found, answered or noted is not None and lacks(found, noted))
        if gates:
            yield from mend(found, gates, writes)
        else:
            yield "there is no gate to open"


def main(words: List[str]) -> int:
    parser = parser_of("guard", __doc__, EXAMPLES)
    parser.add_argument("folder", metavar="FOLDER", help="the market's folder")
    parser.add_argument("--note", metavar="FILE", help="compare with this note, and renew it where nothing is found")
    parser.add_argument("--accept", action="store_true", help="with --note: write it over what was found")
    parser.add_argument("--quick", action="store_true", help="compare two files by each client's last number alone")
    parser.add_argument("--mend", action="store_true", help="open the gates that rotted: on a copy first")
    parser.add_argument("--adopt-unproved", action="store_true", help="take over what an unproved program wrote")
    parser.add_argument("--answered", action="store_true", help="with --mend: also what a stop may have left")
    parser.add_argument("--dry-run", action="store_true", help="with --mend: leave it at the copy")
    add_forms(parser)
    asked = parser.parse_args(words)
    if (asked.answered or asked.dry_run) and not asked.mend:
        parser.error("--answered and --dry-run go with --mend")
    if asked.accept and asked.note is None:
        parser.error("--accept goes with --note")
    if asked.adopt_unproved:
        return ended("guard", lambda: _adopted(asked), asked.json)
    return ended("guard", lambda: _mended_and_judged(asked), asked.json)


def _adopted(asked: Namespace) -> int:
    """Takes over what an unproved program wrote. Gives the status."""
    from .adopt import adopt  # not at the top: it holds the files as the guard does

    with bounded(DAY):
        said = adopt(asked.folder)
    sys.stdout.write(as_json({"folder": asked.folder, "adopted": said}) if asked.json else f"{said}\n")
    return 0


def said_of_program() -> Iterator[Line]:
    """A program that would be run over a market, and that was not built from proofs. A launcher is none."""
    program = find_program()
    with contextlib.suppress(OSError, Unfit), open_file(program) as file:
        if file.read(4) == b"\x7fELF" and not is_proved(program):
            yield Line(f"{program} was not built from proofs: see what `liq version` says of it", is_finding=False)


def _mended_and_judged(asked: Namespace) -> int:
    """Mends where that is asked for, and looks. Gives the status."""
    told: List[str] = []
    refused, found = False, Look(Path(asked.folder), [], None, [])

    def say(text: str) -> None:
        if asked.json:
            told.append(text)
        else:
            print(text)

    if asked.mend:
        try:
            with bounded(DAY):
                for text in mended(asked.folder, asked.note, asked.answered, not asked.dry_run):
                    say(text)
        except (Unfit, OSError) as fault:
            say(f"guard opens no gate: {fault}")
            refused = True
    try:
        with Bar() as bar:
            found = judged(asked.folder, How(asked.note, asked.accept, asked.quick, bar))
            if asked.accept and found.found:
                for line in found.lines:
                    say(line.text)
                say(f"{asked.note}: it is written over that. What is said now:")
                found = judged(asked.folder, How(asked.note, False, asked.quick, bar))
    except (Unfit, OSError) as fault:
        found = found._replace(lines=[Line(f"the guard can't look: {fault}")])
    found = found._replace(lines=found.lines + list(said_of_program()))
    may_start = not refused and not found.found
    if asked.json:
        sys.stdout.write(as_json({
            "folder": asked.folder, "may_start": may_start, "generation": generation_of(found.current) or None,
            "records": found.current.records if found.current else None,
            "findings": [line.text for line in found.found],
            "left_by_a_stop": [line.text for line in found.lines if not line.is_finding], "mended": told,
        }))
    else:
        for line in found.lines:
            print(line.text)
    return 0 if may_start else 1


def command() -> int:
    """The command, with the words of its process."""
    return as_process(main)


if __name__ == "__main__":
    sys.exit(command())
