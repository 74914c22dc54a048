"""What a statement of a market says, and two of its forms, text and JSON; `statement_page` makes a page of HTML. All
have the same numbers.

Debt and LUSD are in millionths, collateral and gains are in gwei, as everywhere in liq.
"""
import hashlib
import json
import re
from fractions import Fraction
from typing import Any, Dict, Iterator, List, NamedTuple, Optional, Sequence, Tuple, Union

from .model import Market
from .model.amounts import RESERVE
from .model.troves import entire, pending
from .shares import Share
from .units import counted

STATEMENT = 1  # the form of a statement
DECIMAL_BITS = 128  # a fraction over more is spelt in hexadecimal, and cut off where it is shown
PLACES = 9
NUMBER = re.compile("-|-?[0-9./]+").fullmatch
Cell = Union[int, str, Fraction, None]


class FileRow(NamedTuple):
    """A file. `generation` is None where it holds no journal."""

    place: str
    name: str
    generation: Optional[int]
    size: int
    sha256: str


class GenerationRow(NamedTuple):
    """A generation. `last` is the digest of its last record, or of its header where there is none; `counts` is the
    SHA-256 of what counts of its file, which has `size` bytes."""

    generation: int
    version: int
    checkpoint: int
    records: int
    last: str
    size: int
    counts: str


class Depositor(NamedTuple):
    """An account that has or had a deposit: `gain` is what it can take, `gained` has what it took besides. The
    allowances are by how much balance and gained may fall short of the exact share, if that is known."""

    account: int
    balance: int
    gain: int
    gained: int
    share: Share
    balance_allowance: Optional[int]
    gain_allowance: Optional[int]

    @property
    def short(self) -> Share:
        """By how much balance and gained fall short of the exact share; below 0 where they lie above it."""
        return Share(self.share.balance - self.balance, self.share.gain - self.gained)

    @property
    def holds(self) -> bool:
        """Whether neither lies above the exact share, nor short of it by more than the allowance."""
        pairs = zip(self.short, (self.balance_allowance, self.gain_allowance))
        return all(0 <= short and (most is None or short <= most) for short, most in pairs)


class Equal(NamedTuple):
    """Two amounts that have to be the same."""

    what: str
    here: Union[int, Fraction]
    there: Union[int, Fraction]


class Statement(NamedTuple):
    """A statement. `whole` says that it begins with the first generation; `sums` are the exact shares of all, where it
    does. `left` is what a stop has left beside what counts, `earlier` the statement that it goes on from, and `made_by`
    the SHA-256 of the modules that made it."""

    day: str
    files: List[FileRow]
    generations: List[GenerationRow]
    whole: bool
    market: Market
    depositors: List[Depositor]
    offsets: int
    brought: int
    sums: Optional[Share]
    left: List[str]
    earlier: str
    made_by: str

    @property
    def commands(self) -> int:
        """How many commands were carried out."""
        return sum(row.records for row in self.generations)

    @property
    def equals(self) -> List[Equal]:
        """What has to be the same, with all that the rules say of conservation."""
        market = self.market
        wallets = [sum(row[asset] for row in market.wallets.values()) for asset in (0, 1)]
        homes = market.active_coll + market.default_coll + market.surplus + market.fee_coll + market.pool_coll
        lusd = wallets[1] + market.pool_lusd + market.reserve + market.fee_lusd
        troves = list(market.troves.values())
        equals = [
            Equal("all debt is all LUSD", market.total_debt, lusd),
            Equal("all collateral inside is in its homes", market.brought, wallets[0] + homes),
            Equal("the reserve is that of each trove", market.reserve, RESERVE * len(troves)),
            Equal("the active collateral is that of the troves", market.active_coll, sum(row.coll for row in troves)),
            Equal("the active debt is that of the troves", market.active_debt, sum(row.debt for row in troves)),
            Equal("the surplus is what owners may claim", market.surplus, sum(market.surpluses.values())),
        ]
        if self.sums:
            equals.append(Equal("the exact balances are what the pool has", self.sums.balance, market.pool_lusd))
            equals.append(Equal("the exact gains are what all offsets brought", self.sums.gain, self.brought))
        return equals

    @property
    def faults(self) -> List[str]:
        """What does not hold."""
        unequal = [each for each in self.equals if each.here != each.there]
        wrong = [f"{each.what}: {cell(each.here)}, {cell(each.there)}" for each in unequal]
        wrong += [f"{what}: {has} of {of_all}" for what, has, of_all in self.within if has > of_all]
        return wrong + [
            f"account {row.account}: balance short by {shown(row.short.balance)}, gain short by {shown(row.short.gain)}"
            for row in self.depositors if not row.holds
        ]

    @property
    def within(self) -> List[Tuple[str, int, int]]:
        """What may not be more than it is part of: the rest is dust of rounding."""
        market = self.market
        coll, debt = (sum(part) for part in zip((0, 0), *(pending(market, row) for row in market.troves.values())))
        balances, gains = (sum(getattr(row, name) for row in self.depositors) for name in ("balance", "gain"))
        return [
            ("what is pending for troves, of the default collateral", coll, market.default_coll),
            ("what is pending for troves, of the default debt", debt, market.default_debt),
            ("all balances, of the Stability Pool's LUSD", balances, market.pool_lusd),
            ("all gains, of the Stability Pool's ether", gains, market.pool_coll),
        ]


# ---- fractions


def spelt(part: Fraction) -> str:
    """A fraction in lowest terms, exactly: in decimal where its denominator is below 2^128, else in hexadecimal."""
    if part.denominator == 1:
        return str(part.numerator)
    if part.denominator.bit_length() <= DECIMAL_BITS:
        return f"{part.numerator}/{part.denominator}"
    return f"{part.numerator:#x}/{part.denominator:#x}"


def shown(part: Fraction) -> str:
    """A fraction as text and page show it: exactly, or cut off behind nine places where it is spelt in hexadecimal."""
    if part.denominator.bit_length() <= DECIMAL_BITS:
        return spelt(part)
    sign, units = "-" if part < 0 else "", abs(part.numerator) * 10**PLACES // part.denominator
    return f"{sign}{units // 10**PLACES}.{units % 10**PLACES:0{PLACES}}.."


def digest_of_shares(depositors: Sequence[Depositor]) -> str:
    """The SHA-256 of all exact shares, a line `ACCOUNT BALANCE GAIN` each, as `spelt`."""
    found = hashlib.sha256()
    for row in depositors:
        found.update(f"{row.account} {spelt(row.share.balance)} {spelt(row.share.gain)}\n".encode("ascii"))
    return found.hexdigest()


# ---- what is said


class Table(NamedTuple):
    """Rows under heads. `name` and `keys` are those of JSON."""

    name: str
    title: str
    keys: Tuple[str, ...]
    heads: Tuple[str, ...]
    rows: List[Tuple[Cell, ...]]


def cell(value: Cell) -> str:
    """A cell as text and page show it."""
    if isinstance(value, Fraction):
        return shown(value)
    return "-" if value is None else str(value)


def facts_of(statement: Statement) -> List[Tuple[str, Cell]]:
    """What a statement is of: names and values."""
    market, last = statement.market, statement.generations[-1]
    return [
        ("liq_statement", STATEMENT), ("date", statement.day), ("generation", last.generation),
        ("records", last.records), ("last_digest", last.last), ("minute", market.minute), ("price", market.price),
        ("mode", "recovery" if market.is_recovery() else "normal"), ("base_rate", market.base_rate),
        ("fee_minute", market.fee_minute), ("shares_since_generation", statement.generations[0].generation),
        ("commands", statement.commands), ("offsets", statement.offsets),
        ("shares_digest", digest_of_shares(statement.depositors)), ("modules_digest", statement.made_by),
        ("units", "LUSD, debt and prices in millionths, ether in gwei"),
    ]


def tables(statement: Statement) -> List[Table]:
    """All tables of a statement."""
    return [*_of_files(statement), *_of_depositors(statement), *_of_accounts(statement), *_of_totals(statement)]


def _of_files(statement: Statement) -> Iterator[Table]:
    yield Table(
        "files", "Files", ("place", "name", "generation", "bytes", "sha256"),
        ("in", "name", "generation", "bytes", "SHA-256"), [tuple(row) for row in statement.files])
    yield Table(
        "generations", "Generations", ("generation", "version", "checkpoint_bytes", "records", "bytes", "sha256"),
        ("generation", "version", "checkpoint bytes", "records", "bytes", "SHA-256 of what counts"),
        [(row.generation, row.version, row.checkpoint, row.records, row.size, row.counts)
         for row in statement.generations])
    yield Table(
        "last_records", "Last records", ("generation", "record", "digest"), ("generation", "record", "digest"),
        [(row.generation, row.records, row.last) for row in statement.generations])


def _of_depositors(statement: Statement) -> Iterator[Table]:
    rows = [(row, row.short) for row in statement.depositors]
    yield Table(
        "balances", "Depositors: LUSD in the Stability Pool",
        ("account", "balance", "exact", "short", "allowance"),
        ("account", "balance", "exactly", "short by", "may be short by"),
        [(row.account, row.balance, row.share.balance, shown(short.balance), row.balance_allowance)
         for row, short in rows])
    yield Table(
        "gains", "Depositors: ether gained",
        ("account", "gain", "gained", "exact", "short", "allowance"),
        ("account", "to take", "gained in all", "exactly", "short by", "may be short by"),
        [(row.account, row.gain, row.gained, row.share.gain, shown(short.gain), row.gain_allowance)
         for row, short in rows])


def _of_accounts(statement: Statement) -> Iterator[Table]:
    market = statement.market
    yield Table(
        "troves", "Troves, with what is pending", ("account", "coll", "debt", "stake"),
        ("account", "ether", "debt", "stake"),
        [(account, *entire(market, trove), trove.stake) for account, trove in sorted(market.troves.items())])
    accounts = sorted({account for account, row in market.wallets.items() if any(row)} | market.surpluses.keys())
    yield Table(
        "wallets", "Wallets, and what owners may claim", ("account", "coll", "lusd", "surplus"),
        ("account", "ether", "LUSD", "ether to claim"),
        [(account, *market.wallet(account), market.surpluses.get(account, 0)) for account in accounts])


def _of_totals(statement: Statement) -> Iterator[Table]:
    market = statement.market
    coll, lusd = (sum(row[asset] for row in market.wallets.values()) for asset in (0, 1))
    yield Table(
        "homes", "Homes", ("home", "coll", "lusd"), ("home", "ether", "LUSD"),
        [
            ("wallets", coll, lusd), ("active pool", market.active_coll, None),
            ("default pool", market.default_coll, None), ("Stability Pool", market.pool_coll, market.pool_lusd),
            ("surplus", market.surplus, None), ("fees", market.fee_coll, market.fee_lusd),
            ("reserve", None, market.reserve),
        ])
    yield Table(
        "equal", "What has to be the same", ("what", "here", "there"), ("what", "here", "there"),
        [tuple(each) for each in statement.equals])
    yield Table(
        "within", "What may not be more: the rest is dust", ("what", "has", "of"), ("what", "has", "of"),
        [tuple(each) for each in statement.within])


def checked(statement: Statement) -> List[str]:
    """What was checked."""
    first, last = statement.generations[0].generation, statement.generations[-1].generation
    records = counted(statement.commands, "record")
    said = [f"{records}: each one's digest, and that the rules accept it behind those before it"]
    if last > first:
        turns = counted(last - first, "rotation")
        said.append(f"{turns}: the checkpoint that follows is what the commands before lead to, to the byte")
    if statement.whole:
        said.append("that the history begins with the first generation, so with an empty market")
        said.append("that no depositor is above its exact share, or short of it by more than it may be")
    else:
        said.append(f"that the checkpoint of generation {first} meets the eleven rules of a sound state")
        said.append("that no depositor is above its exact share as it counts from there")
    said.append("that what has to be the same is, and that nothing is more than what it is a part of")
    if statement.earlier:
        said.append(f"that the files go on from {statement.earlier}")
    return said


def not_checked(statement: Statement) -> List[str]:
    """What was not checked."""
    first = statement.generations[0].generation
    said = []
    if not statement.whole:
        said.append(
            f"the commands before generation {first}, which are not here: its checkpoint is taken as true, exact shares"
            " count from it on, and by how much they may fall short is not known")
    if statement.earlier:
        said.append(f"who made {statement.earlier}, and whether what came behind it is what users saw")
    else:
        said.append("whether these are the files that users saw: an earlier statement or copy shows that, or replies")
    return said + [
        "who sent a command, and whether prices and times were right",
        "what came behind the last record",
        "the rules of liq.model themselves: where they are wrong, so is this",
    ] + statement.left


# ---- the forms


def text(statement: Statement) -> str:
    """A statement as text."""
    lines = [f"{name.replace('_', ' ')}: {cell(value)}" for name, value in facts_of(statement)]
    for table in tables(statement):
        lines += ["", f"{table.title}:", *_aligned(table)]
    for title, said in lists(statement):
        lines += ["", f"{title}:", *(f"- {line}" for line in said)]
    return "\n".join(lines) + "\n"


def lists(statement: Statement) -> List[Tuple[str, List[str]]]:
    """What does not hold, what was checked, and what was not."""
    found = [("Does not hold", statement.faults)] if statement.faults else []
    return [*found, ("Checked", checked(statement)), ("Not checked", not_checked(statement))]


def _aligned(table: Table) -> Iterator[str]:
    """A table's lines: numbers stand to the right, all else to the left."""
    if not table.rows:
        yield "none"
        return
    rows = [table.heads, *(tuple(cell(value) for value in row) for row in table.rows)]
    widths = [max(map(len, column)) for column in zip(*rows)]
    is_number = [all(map(NUMBER, column)) for column in zip(*rows[1:])]
    for row in rows:
        cells = zip(row, widths, is_number)
        line = "  ".join(value.rjust(width) if number else value.ljust(width) for value, width, number in cells)
        yield line.rstrip()


def as_json(statement: Statement) -> str:
    """A statement as JSON. A fraction is a text, in lowest terms; one that text and page cut off stands there too, as
    they show it, under its key and `_shown`."""
    made: Dict[str, Any] = dict(facts_of(statement))
    for table in tables(statement):
        made[table.name] = [_object(table.keys, row) for row in table.rows]
    for title, said in lists(statement):
        made[title.lower().replace(" ", "_")] = said
    made["holds"] = not statement.faults
    return json.dumps(made, indent=1, sort_keys=True) + "\n"


def _object(keys: Sequence[str], row: Sequence[Cell]) -> Dict[str, Any]:
    made: Dict[str, Any] = {}
    for key, value in zip(keys, row):
        made[key] = spelt(value) if isinstance(value, Fraction) else value
        if isinstance(value, Fraction) and shown(value) != made[key]:
            made[f"{key}_shown"] = shown(value)
    return made
