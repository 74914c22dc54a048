"""A statement of a market: who has what by its files, worked out without the program.

usage: python3 -m liq.statement [--archive DIR] [--earlier FILE] [--date YYYY-MM-DD]
                                [--form text|json|page | --json | --csv TABLE] [--seconds N] FOLDER

It copies both files, goes through all commands by `liq.model`, and writes for each depositor the balance, the gain, the
exact shares as fractions, what is short of these, and what may be; for each trove and wallet what it has; and totals.
With it come the digests of the files, what was checked, and what was not. The same files, date and options give the
same text, JSON or page, to the byte.

--archive DIR   the generations before those on the files, as `liq.archive` has kept them: then it is one history
--earlier FILE  an earlier statement of this market, as JSON: the files have to go on from those that it was made of
--date DATE     the date that it bears; that of today (UTC) unless one is said
--form FORM     text, unless another is said; --json is --form json
--csv TABLE     one table alone, as rows: that of `balances`, `gains`, `troves`, `wallets` and so on
--seconds N     the most time that it may take, an hour unless another number is said

It refuses damaged files, and those that are no history of one market: it names the record, and says what the records
before it stand for. It ends with 0 where all holds, with 1 where something does not or where it refuses, and with 2
where the words are not understood. The folder and the archive may be anybody's: `liq.recheck` has the bounds.
"""
import contextlib
import hashlib
import json
import re
import sys
from datetime import date, datetime, timezone
from fractions import Fraction
from pathlib import Path
from typing import Any, Callable, Dict, Iterator, List, NamedTuple, Optional, Tuple

from .archive import Differing, Kept, NotArchived, Source, named_in, sources
from .backup import backup
from .console import add_seconds, as_csv, as_process, ended, parser_of, refused
from .ends import Folder, TooMuch, Unfit
from .errors import BadValue
from .guard import generation_of, look_at, said_of_records, said_of_shut
from .history import begun, digest_of, replay, rotated
from .journal import BYTES_MOST, FRONT_BYTES, RECORD_BYTES, DamagedFile, Disk
from .journal import files_of, is_open, read_file, read_header
from .model import Market, Offset, Own
from .model.amounts import GENERATIONS_MOST, RECORDS_MOST
from .model.pool import position
from .model.told import state_text
from .progress import Bar
from .recheck import SECONDS, SHARES_BYTES_MOST, SHARES_PLACES_MOST
from .scratch import bounded, scratch
from .shares import Allowances, PlainLedger, share_in
from .stated import STATEMENT, Depositor, FileRow, GenerationRow, Statement, as_json, spelt, tables, text
from .statement_page import page
from .units import counted

FORMS: Dict[str, Callable[[Statement], str]] = {"text": text, "json": as_json, "page": page}
NOTHING = ("nothing stands before that",)
TABLES = (
    "balances", "gains", "troves", "wallets", "homes", "files", "generations", "last_records", "equal", "within",
)
EXAMPLES = """
python3 -m liq.statement --date 2026-11-30 market > statement.txt
python3 -m liq.statement --archive archive --form page market > statement.html
python3 -m liq.statement --csv balances market > balances.csv
python3 -m liq.statement --earlier monday.json --json market > tuesday.json
"""
IS_DIGEST = re.compile("[0-9a-f]{64}").fullmatch


class NotStated(Unfit):
    """The files are no history of one market. `before` says what stands in front of the place where they part."""

    def __init__(self, why: str, before: Tuple[str, ...] = ()) -> None:
        super().__init__(why, before)
        self.why, self.before = why, before

    def __str__(self) -> str:
        return self.why


class Followed:
    """A market, followed by the model through the generations that are there."""

    def __init__(self, bar: Bar) -> None:
        self.bar = bar
        self.market: Optional[Market] = None
        self.generations: List[GenerationRow] = []
        self.ledger, self.allowances = PlainLedger(), Allowances()
        self.paid: Dict[int, int] = {}
        self.offsets = self.brought = 0
        self.whole = True  # whether it began with the first generation

    def through(self, source: Source, most: int = BYTES_MOST) -> Disk:
        """Goes through a generation: the next, or the oldest. Raises `DamagedFile`; then it is as far as the records
        before the damage lead."""
        damage: Optional[DamagedFile] = None
        try:
            disk = source.read(most)
        except DamagedFile as found:
            if found.record == 0:
                raise
            damage, disk = found, records_before(source.path, found.record, most)
        if self.market is None:
            self._begin(disk)
        else:
            self.market = rotated(self.market, disk)
        assert self.market
        done = 0

        def each(index: int) -> None:
            nonlocal done
            done = index
            self._note()

        try:
            replay(self.market, disk, each)
        finally:
            self.generations.append(generation_row(disk, done))
        if damage:
            raise damage
        return disk

    def _begin(self, disk: Disk) -> None:
        self.market = begun(disk)
        self.market.events = []
        self.whole = disk.checkpoint is None
        if disk.checkpoint:
            for account, deposit in disk.checkpoint.deposits.items():
                self.ledger.begin(account, share_in(disk.checkpoint, deposit))

    def _note(self) -> None:
        """Follows each depositor through what a command did to the Stability Pool."""
        self.bar.add()
        assert self.market and self.market.events is not None
        for event in self.market.events:
            if isinstance(event, Own):
                self.ledger.change(event.account, event.put, event.paid)
                self.paid[event.account] = self.paid.get(event.account, 0) + event.gain
                if self.whole:
                    self.allowances.change(event.account, event.amount)
            elif isinstance(event, Offset):
                self._note_offset(event)
        self.market.events.clear()

    def _note_offset(self, event: Offset) -> None:
        if self.ledger.size > SHARES_BYTES_MOST:
            raise TooMuch("the exact shares take", SHARES_BYTES_MOST, "bytes")
        if self.ledger.denominator.bit_length() > SHARES_PLACES_MOST:
            raise TooMuch("the exact shares have", SHARES_PLACES_MOST, "binary places")
        self.ledger.offset(event.debt, event.coll, event.total)
        if self.whole:
            self.allowances.offset(event.debt, event.total)
        self.offsets += 1
        self.brought += event.coll

    def stands(self) -> Tuple[str, ...]:
        """What all records that it went through stand for, as `state` tells it; nothing where there are none."""
        if self.market is None:
            return ()
        row = self.generations[-1]
        records = f"the first {counted(row.records, 'record')} of generation {row.generation}"
        return (f"{records}, up to the digest {row.last}, stand for", *state_text(self.market))

    def depositors(self) -> Iterator[Depositor]:
        """Each account that has or had a deposit."""
        assert self.market
        self.bar.begin("exact shares", len(self.ledger.begun))
        for account in self.ledger.accounts:
            deposit = self.market.deposits.get(account)
            balance, gain = position(self.market, deposit) if deposit else (0, 0)
            allowed = self.allowances.of(account) if self.whole else (None, None)
            yield Depositor(
                account, balance, gain, self.paid.get(account, 0) + gain, self.ledger.share(account), *allowed)
            self.bar.add()


def records_before(path: Path, record: int, most: int) -> Disk:
    """A generation up to a record, without it."""
    data = read_file(path, most)
    begin = read_header(path, data[:FRONT_BYTES], len(data)).begin
    return Disk(path, data=data[: begin + RECORD_BYTES * (record - 1)] + b"\0")


def generation_row(disk: Disk, records: int) -> GenerationRow:
    """What a statement says of a generation, up to so many of its records."""
    end = disk.begin + RECORD_BYTES * records
    counts = disk.data[:end] + b"\0"
    last = disk.data[end - 32 : end] if records else disk.data[disk.header - 32 : disk.header]
    return GenerationRow(
        disk.generation, disk.version, disk.begin - disk.header, records, last.hex(), len(counts), digest_of(counts))


def file_rows(folder: Path, chain: List[Source]) -> List[FileRow]:
    """Both files of a folder, and the copies of an archive."""
    rows = []
    for source in chain:
        if source.kept:
            name, size = f"generation {source.generation}", source.kept.path.stat().st_size
            rows.append(FileRow("archive", name, source.generation, size, source.kept.digest))
    of_files = {source.file: source.generation for source in chain if source.file}
    for path in files_of(folder):
        data = read_file(path)
        rows.append(FileRow("folder", path.name, of_files.get(path), len(data), digest_of(data)))
    return rows


# ---- an earlier statement


class Earlier(NamedTuple):
    """What an earlier statement says of each generation: its records, and the SHA-256 of what counted."""

    day: str
    generations: Dict[int, Tuple[int, str]]

    @property
    def last(self) -> int:
        """The generation that counted."""
        return max(self.generations)

    def __str__(self) -> str:
        records = counted(self.generations[self.last][0], "record")
        return f"a statement of {self.day} over generation {self.last} with {records}"

    def check(self, disk: Disk) -> None:
        """Raises `NotStated` where a generation does not go on from what it was then."""
        records, digest = self.generations.get(disk.generation, (0, ""))
        if digest and generation_row(disk, records).counts != digest:
            first = f"the first {counted(records, 'record')} of generation {disk.generation}"
            raise NotStated(f"{disk.path.name}: {first} are not those of {self}")


def read_earlier(path: Folder) -> Earlier:
    """An earlier statement, as JSON. Raises `NotStated` where it is none."""
    try:
        made = json.loads(read_file(path))
        rows = dict(_earlier_row(row["generation"], row["records"], row["sha256"]) for row in made["generations"])
        if made["liq_statement"] != STATEMENT or not rows:
            raise BadValue("the form is another, or there is no generation")
        return Earlier(read_day(made["date"]), rows)
    except (ValueError, KeyError, TypeError, RecursionError):
        raise NotStated(f"{path} is no statement of this form, as JSON") from None


def _earlier_row(generation: Any, records: Any, digest: Any) -> Tuple[int, Tuple[int, str]]:
    """A generation of an earlier statement. Raises BadValue, or TypeError."""
    if type(generation) is not int or type(records) is not int or not IS_DIGEST(digest):
        raise BadValue("it is no row of a generation")
    if not 1 <= generation <= GENERATIONS_MOST or not 0 <= records <= RECORDS_MOST:
        raise BadValue("a number of it is out of range")
    return generation, (records, digest)


# ---- the whole


def statement(
    folder: Folder, archive: Optional[Folder] = None, day: str = "", earlier: Optional[Earlier] = None,
    bar: Optional[Bar] = None,
) -> Statement:
    """A statement of a folder's market, and of an archive's generations. Raises `NotStated`, and other `Unfit`.

    There is no bound on time here: `main` calls it within `scratch.bounded`.
    """
    named = named_in(archive, folder) if archive is not None else []
    with scratch(folder, "liq-statement") as room:
        backup(folder, room, bar=bar)
        return _stated(room, archive, named, day or today(), earlier, bar or Bar())


def _stated(
    room: Path, archive: Optional[Folder], named: List[Kept], day: str, earlier: Optional[Earlier], bar: Bar
) -> Statement:
    followed = Followed(bar)
    try:
        chain = sources(room, archive, named)
        files = file_rows(room, chain)
        bar.begin("records", sum(source.path.stat().st_size // RECORD_BYTES for source in chain))
        if earlier and earlier.last not in [source.generation for source in chain]:
            raise NotStated(f"generation {earlier.last}, of {earlier}, is on none of the files: they can't be compared")
        for source in chain:
            disk = followed.through(source)
            if earlier:
                earlier.check(disk)
        left = left_beside(room)
    except NotArchived as gap:
        raise NotStated(str(gap), stands_to(gap.directory) or NOTHING) from None
    except Differing as fault:
        raise NotStated(str(fault), followed.stands() or NOTHING) from None
    except DamagedFile as fault:
        raise NotStated(str(fault), followed.stands() or stands_beside(room, fault.path) or NOTHING) from None
    market = followed.market
    assert market
    depositors = list(followed.depositors())
    sums = followed.ledger.sums if followed.whole else None
    return Statement(
        day, files, followed.generations, followed.whole, market, depositors, followed.offsets, followed.brought, sums,
        left, str(earlier) if earlier else "", digest_of_modules())


def stands_to(archive: Path) -> Tuple[str, ...]:
    """What the copies of an archive stand for, from its oldest one up to a gap or damage."""
    followed = Followed(Bar())
    copies = named_in(archive)
    with contextlib.suppress(DamagedFile):
        for at, kept in enumerate(copies):
            if kept.generation != copies[0].generation + at:
                break
            followed.through(Source(kept.generation, None, kept))
    return followed.stands()


def stands_beside(room: Path, damaged: Path) -> Tuple[str, ...]:
    """What the other file of a folder stands for by itself."""
    followed = Followed(Bar())
    for path in files_of(room):
        if damaged.parent == room and path != damaged and is_open(read_file(path)):
            with contextlib.suppress(DamagedFile):
                followed.through(Source(0, path, None))
    stands = followed.stands()
    return ("nothing stands before that, but beside it:", *stands) if stands else ()


def left_beside(room: Path) -> List[str]:
    """What a stop has left beside what counts. Raises `DamagedFile` at what no stop leaves."""
    seen = [look_at(path) for path in files_of(room)]
    current = max((each for each in seen if each.is_open), key=generation_of)
    said = []
    for each in seen:
        lines = said_of_records(each, current) if each.is_open else said_of_shut(each, current)
        for line in lines:
            if line.is_finding:
                why = line.text.partition(": ")[2]
                raise DamagedFile(each.path, each.records + 1 if each.is_open else 0, why)
            said.append(line.text)
    return said


def digest_of_modules() -> str:
    """The SHA-256 of the package's modules and templates, one behind the other by their names: each name, length, and
    its bytes."""
    package, found = Path(__file__).parent, hashlib.sha256()
    for path in sorted([*package.glob("*.py"), *package.glob("model/*.py"), *package.glob("templates/*.*")]):
        data = path.read_bytes()
        found.update(f"{path.relative_to(package)} {len(data)}\n".encode() + data)
    return found.hexdigest()


def today() -> str:
    """The date, by UTC."""
    return datetime.now(timezone.utc).date().isoformat()


def read_day(word: str) -> str:
    """A date, as YYYY-MM-DD. Raises ValueError."""
    if date.fromisoformat(word).isoformat() != word:
        raise BadValue(f"{word} is no date YYYY-MM-DD")
    return word


def main(words: List[str]) -> int:
    parser = parser_of("statement", __doc__, EXAMPLES)
    parser.add_argument("folder", metavar="FOLDER", help="the market's folder, which may be anybody's")
    parser.add_argument("--archive", metavar="DIR", help="the generations before, as liq.archive keeps them")
    parser.add_argument("--earlier", metavar="FILE", help="an earlier statement, as JSON, from which the files go on")
    parser.add_argument("--date", metavar="YYYY-MM-DD", type=read_day, default=today(), help="the date that it bears")
    forms = parser.add_mutually_exclusive_group()
    forms.add_argument("--form", choices=sorted(FORMS), default="text", help="text, unless another is said")
    forms.add_argument("--json", action="store_const", dest="form", const="json", help="as --form json")
    forms.add_argument("--csv", metavar="TABLE", choices=TABLES, help=f"one table alone, as rows: {', '.join(TABLES)}")
    add_seconds(parser, SECONDS)
    asked = parser.parse_args(words)
    is_json = asked.form == "json"

    def tell() -> int:
        try:
            with bounded(asked.seconds), Bar() as bar:
                earlier = read_earlier(asked.earlier) if asked.earlier else None
                made = statement(asked.folder, asked.archive, asked.date, earlier, bar)
                said = table_of(made, asked.csv) if asked.csv else FORMS[asked.form](made)
        except NotStated as fault:
            return refused("statement", str(fault), is_json, fault.before)
        sys.stdout.write(said)
        return 1 if made.faults else 0

    return ended("statement", tell, is_json)


def table_of(made: Statement, name: str) -> str:
    """One table of a statement as CSV, each fraction whole."""
    (table,) = [each for each in tables(made) if each.name == name]
    rows = ([spelt(cell) if isinstance(cell, Fraction) else cell for cell in row] for row in table.rows)
    return as_csv(table.keys, rows)


def command() -> int:
    """The command, with the words of its process."""
    return as_process(main)


if __name__ == "__main__":
    sys.exit(command())
