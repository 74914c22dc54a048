"""An audit with arithmetic of its own, beside that of `liq audit`.

usage: python3 -m liq.recheck [--seconds N] [--archive DIR] [--json|--csv] FOLDER

It copies both files, reads the commands, and has the program carry them out again in a folder of its own. From the
replies it takes what each depositor put in and was paid, and what each liquidation took from the Stability Pool and
brought to it. It follows each depositor through that in exact fractions (`shares`), and holds what the program has
for it beside them. A `liquidate_lowest` is carried out as single ones, since its reply tells the sums alone.

With an archive (`liq.archive`) it begins with the oldest generation there.

It refuses where the market that it comes to is not the one on the files, word for word. It ends with 0 where all
holds, with 1 where something does not or cannot be read, and with 2 where the words are not understood.

The folder may be anybody's. Each file may have 2^28 bytes, the exact shares may take 2^30 bytes and 2^22 binary places,
and the whole may take N seconds, an hour unless another number is said: what passes that is refused (`TooMuch`).
The copies are gone behind it, also where a signal ends it.

It writes a row for each depositor: balance and gain beside the exact values, cut off behind three places, and by how
much each may be short; and then what that comes to. As JSON the exact values stand there whole, as fractions too.
"""
import sys
from fractions import Fraction
from itertools import chain
from pathlib import Path
from typing import Any, Container, Dict, Iterable, Iterator, List, NamedTuple, Optional, Tuple

from .archive import Generations, named_in, sources
from .backup import backup
from .client import ACCOUNTS, LOWEST_MOST
from .console import add_forms, add_seconds, aligned, as_csv, as_json, as_process, ended, parser_of
from .ends import Folder, Limit, Rotated, TooMuch, Unfit
from .journal import BYTES_MOST, RECORD_BYTES, SIDES, Checkpoint, Command, Disk, Journal
from .progress import Bar
from .refusals import Refusal
from .scratch import bounded, scratch
from .service import Service
from .shares import Allowances, PlainLedger, Share, share_in
from .units import counted
from .words import Audit, AuditRow, audit

SAME = ("generation", "clients")  # the fields of a checkpoint in which a replay may differ
SECONDS = 3600
SHARES_BYTES_MOST, SHARES_PLACES_MOST = 2**30, 2**22
HEADS = ("account", "balance", "exactly", "may be short by", "gain", "exactly", "may be short by")
KEYS = ("account", "balance", "balance_exact", "balance_allowance", "gain", "gain_exact", "gain_allowance")
EXAMPLES = """
python3 -m liq.recheck market
python3 -m liq.recheck --archive archive --csv market > depositors.csv
python3 -m liq.recheck --seconds 600 --json market | jq .holds
"""


class Differs(Unfit):
    """The commands do not lead where the files say."""


class Row(NamedTuple):
    """A depositor: what the program has for it, its exact share, and by how much that may fall short, if it is
    known."""

    account: int
    balance: int
    gain: int
    share: Share
    balance_allowance: Optional[int]
    gain_allowance: Optional[int]

    @property
    def short(self) -> Tuple[Fraction, Fraction]:
        """By how much balance and gain fall short of the exact share; below 0 where they lie above it."""
        return self.share.balance - self.balance, self.share.gain - self.gain

    @property
    def holds(self) -> bool:
        """Whether neither lies above the exact share, nor short of it by more than the allowance."""
        allowed = (self.balance_allowance, self.gain_allowance)
        return all(0 <= short and (most is None or short <= most) for short, most in zip(self.short, allowed))

    @property
    def cells(self) -> Tuple[object, ...]:
        """Its cells, under `HEADS` or `KEYS`: the exact shares are cut off."""
        balance, gain = (cut_off(part) for part in self.share)
        return (
            self.account, self.balance, balance, self.balance_allowance, self.gain, gain, self.gain_allowance)

    def __str__(self) -> str:
        return " ".join("-" if cell is None else str(cell) for cell in self.cells)


class Replay:
    """The commands of a journal, carried out again, and each depositor followed through them."""

    def __init__(
        self, disks: Iterable[Disk], folder: Path, program: Optional[Folder] = None, bar: Optional[Bar] = None
    ) -> None:
        reading, self.bar = iter(disks), bar or Bar()
        first = next(reading)
        self.ledger, self.allowances = PlainLedger(), Allowances()
        self.paid: Dict[int, int] = {}
        self.pool = self.brought = self.offsets = self.commands = 0
        self.start = first.checkpoint
        self.numbers = {client: row.last + 1 for client, row in self.start.clients.items()} if self.start else {}
        if self.start:
            self._begin(first, folder)
        with Service(folder, program, create=self.start is None) as self.service:
            for disk in chain([first], reading):
                if disk is not first and disk.checkpoint:
                    self._ask(rotating_client(disk.checkpoint), "rotate")
                for command in disk.commands:
                    self._carry_out(command)
                    self.commands += 1
                    self.bar.add()
            accounts = self.ledger.accounts
            found = zip(accounts, self.service.deposits(accounts))
            self.deposits = {account: (row.balance, row.gain) if row else (0, 0) for account, row in found}

    def rows(self) -> List[Row]:
        """A row for each depositor."""
        rows = []
        self.bar.begin("exact shares", len(self.deposits))
        for account, (balance, gain) in self.deposits.items():
            self.bar.add()
            allowed = (None, None) if self.start else self.allowances.of(account)
            rows.append(Row(account, balance, self.paid.get(account, 0) + gain, self.ledger.share(account), *allowed))
        return rows

    def _begin(self, disk: Disk, folder: Path) -> None:
        """Begins with a checkpoint, and with the share that each deposit has there."""
        assert self.start
        side = SIDES[(disk.generation + 1) % 2]
        (folder / f"{side}.liq").write_bytes(disk.data[: disk.begin] + b"\0")
        self.pool = self.start.pool_lusd
        for account, deposit in self.start.deposits.items():
            self.ledger.begin(account, share_in(self.start, deposit))

    def _ask(self, client: int, call: str) -> List[str]:
        """The reply to a call under the client's next number."""
        number = self.numbers.get(client, 1)
        words = self.service.ask(f"{client} {number} {call}")
        if words[:2] == ["no", "81"] and call != "rotate":  # single liquidations take more records than the journal had
            rotated = self._ask(unused_client(self.numbers), "rotate")
            if rotated[0] != "ok":
                raise Differs(f"command {self.commands + 1}: the replay's journal is full: {' '.join(rotated)}")
            return self._ask(client, call)
        if words[0] == "ok":
            self.numbers[client] = number + 1
        return words

    def _carry_out(self, command: Command) -> None:
        if command.verb == "liquidate_lowest" and not 1 <= command.amounts[0] <= LOWEST_MOST:
            raise Differs(f"command {self.commands + 1}, {command.line}: a count is from 1 to {LOWEST_MOST}")
        for at, call in enumerate(single_calls(command)):
            words = self._ask(command.client, call)
            if words[0] == "ok":
                self._follow(command, [int(word) for word in words[1:]])
            elif at == 0:
                raise Differs(f"command {self.commands + 1}, {command.line}: {' '.join(words)}")
            else:
                return  # the first trove that may not be liquidated ends a `liquidate_lowest`

    def _follow(self, command: Command, values: List[int]) -> None:
        """What an accepted call did to the Stability Pool."""
        if command.verb in ("provide", "withdraw", "gain_to_trove"):
            self._follow_depositor(command, values)
        elif command.verb == "liquidate":
            self._follow_offset(debt=values[1], coll=values[2])
        elif command.verb == "liquidate_lowest":
            self._follow_offset(debt=values[2], coll=values[3])

    def _follow_depositor(self, command: Command, values: List[int]) -> None:
        account = command.accounts[0]
        put = command.amounts[0] if command.verb == "provide" else 0
        paid = values[0] if command.verb == "withdraw" else 0
        gain = values[0] if command.verb == "gain_to_trove" else values[1]
        self.ledger.change(account, put, paid)
        self.pool += put - paid
        self.paid[account] = self.paid.get(account, 0) + gain
        if not self.start:
            (found,) = self.service.deposits([account])
            self.allowances.change(account, found.balance if found else 0)

    def _follow_offset(self, debt: int, coll: int) -> None:
        if debt == 0:
            return
        if debt > self.pool:
            raise Differs(f"command {self.commands + 1}: the pool takes over {debt}, and has {self.pool}")
        if self.ledger.size > SHARES_BYTES_MOST:
            raise TooMuch("the exact shares take", SHARES_BYTES_MOST, "bytes")
        if self.ledger.denominator.bit_length() > SHARES_PLACES_MOST:
            raise TooMuch("the exact shares have", SHARES_PLACES_MOST, "binary places")
        self.ledger.offset(debt, coll, self.pool)
        if not self.start:
            self.allowances.offset(debt, self.pool)
        self.pool -= debt
        self.brought += coll
        self.offsets += 1


def single_calls(command: Command) -> List[str]:
    """The calls by which a command is carried out: a `liquidate_lowest` by as many of one trove."""
    if command.verb != "liquidate_lowest":
        return [command.call]
    return [f"liquidate_lowest {command.accounts[0]} 1"] * command.amounts[0]


def rotating_client(checkpoint: Checkpoint) -> int:
    """The client whose `rotate` made this checkpoint."""
    for client, row in checkpoint.clients.items():
        if row.verb == "rotate" and row.values[0] == checkpoint.generation:
            return client
    raise Differs(f"no client of the checkpoint has begun generation {checkpoint.generation}")


# ---- the whole


class Result(NamedTuple):
    """What a recheck has found."""

    rows: List[Row]
    replay: Replay
    audit: Optional[Audit]
    why_no_audit: str
    faults: List[str]


def recheck(
    folder: Folder, program: Optional[Folder] = None, archive: Optional[Folder] = None, bar: Optional[Bar] = None
) -> Result:
    """Rechecks the market of a folder, on copies. Raises `Differs` where its replay does not lead there.

    With an archive all its generations are carried out too. The program opens the copies before they are followed, and
    refuses what the rules do not allow. There is no bound on time here: `main` calls it within `scratch.bounded`.
    """
    named, bar = named_in(archive, folder) if archive is not None else None, bar or Bar()
    with scratch(folder, "liq-recheck") as room:
        copied, again = room / "copy", room / "again"
        copied.mkdir()
        again.mkdir()
        backup(folder, copied, bar=bar)
        disks: Iterable[Disk] = Journal(copied).chain
        found_in = sources(copied, archive, named)
        if archive:
            disks = Generations(found_in, BYTES_MOST)
        numbers = last_numbers(disks)
        found, why = audited(copied, program)
        bar.begin("commands", sum(source.path.stat().st_size // RECORD_BYTES for source in found_in))
        replay = Replay(disks, again, program, bar)
        compare_markets(market(copied, program), market(again, program), numbers)
    rows = replay.rows()
    faults = [f"does not hold: {row}" for row in rows if not row.holds]
    faults += compare_sums(replay, rows) + (compare_audit(rows, found) if found else [])
    return Result(rows, replay, found, why, faults)


def audited(folder: Path, program: Optional[Folder]) -> Tuple[Optional[Audit], str]:
    """What `audit` tells; or why it tells nothing."""
    try:
        return audit(folder, program), ""
    except (Limit, Rotated) as end:
        return None, end.last


def market(folder: Path, program: Optional[Folder]) -> Checkpoint:
    """All that the files stand for: a rotation by a client that is not in use writes it down."""
    unused = unused_client(last_numbers(Journal(folder).chain))
    with Service(folder, program) as service:
        try:
            service.client(unused).rotate()
        except Refusal as refusal:
            raise Differs(f"no checkpoint can be written: {refusal}") from None
    found = Journal(folder).current.checkpoint
    assert found
    del found.clients[unused]
    return found


def last_numbers(disks: Iterable[Disk]) -> Dict[int, int]:
    """Each client's last number, by the checkpoints and the records of generations, oldest first."""
    numbers: Dict[int, int] = {}
    for disk in disks:
        for client, row in disk.checkpoint.clients.items() if disk.checkpoint else ():
            numbers[client] = max(row.last, numbers.get(client, 0))
        for command in disk.commands:
            numbers[command.client] = max(command.number, numbers.get(command.client, 0))
    return numbers


def unused_client(used: Container[int]) -> int:
    """The lowest client that is not in use."""
    for client in range(1, ACCOUNTS):
        if client not in used:
            return client
    raise Differs("every client is in use, and none is left for a rotation")


def compare_markets(stands: Checkpoint, comes: Checkpoint, numbers: Dict[int, int]) -> None:
    """Refuses where the replay comes to another market than the one that stands on the files."""
    for name, here, there in zip(Checkpoint._fields, stands, comes):
        if name not in SAME:
            compare(name, here, there, "replay comes")
    compare("clients", {client: row.last for client, row in stands.clients.items()}, numbers, "records come")


def compare(name: str, here: Any, there: Any, other: str) -> None:
    """Refuses where two fields of a market are not the same. Of tables it tells the first row that is another."""
    if here == there:
        return
    if isinstance(here, dict):
        key = min(key for key in here.keys() | there.keys() if here.get(key) != there.get(key))
        name, here, there = f"{name} of {key}", here.get(key), there.get(key)
    raise Differs(f"{name}: the files stand for {here}, the {other} to {there}")


def compare_sums(replay: Replay, rows: List[Row]) -> List[str]:
    """Where the exact shares do not add up to what the pool has and what offsets brought."""
    if replay.start:
        return []
    balances, gains = (sum((row.share[part] for row in rows), Fraction(0)) for part in (0, 1))
    told = [("balances", balances, "the pool has", replay.pool), ("gains", gains, "offsets brought", replay.brought)]
    return [f"the exact {what} add up to {here}, {has} {there}" for what, here, has, there in told if here != there]


def compare_audit(rows: List[Row], found: Audit) -> List[str]:
    """Where the rows of `audit` are others."""
    def fits(row: Row, theirs: AuditRow) -> bool:
        same = (row.account, row.balance, row.balance_allowance, row.gain, row.gain_allowance)
        return (
            same == (theirs.account, theirs.balance, theirs.balance_allowance, theirs.gain, theirs.gain_allowance)
            and theirs.balance_low <= row.share.balance <= theirs.balance_high
            and theirs.gain_low <= row.share.gain <= theirs.gain_high
        )

    pairs = zip(rows, found.rows)
    faults = [f"audit has {' '.join(map(str, theirs))} for {row}" for row, theirs in pairs if not fits(row, theirs)]
    if len(rows) != len(found.rows) or found.within != found.of:
        faults.append(f"audit has {len(found.rows)} rows, within {found.within} of {found.of}, beside {len(rows)} here")
    return faults


def cut_off(part: Fraction) -> str:
    """A fraction, cut off behind three places."""
    thousandths = part.numerator * 1000 // part.denominator
    return f"{thousandths // 1000}.{thousandths % 1000:03}"


def said_of(result: Result) -> Iterator[str]:
    """What a recheck comes to, line by line."""
    if result.rows:
        yield from aligned(HEADS, (row.cells for row in result.rows))
    yield from summed_up(result)


def summed_up(result: Result) -> Iterator[str]:
    """What its rows come to, line by line."""
    replay, rows = result.replay, result.rows
    yield from result.faults
    if replay.start:
        yield f"the commands before generation {replay.start.generation} are gone: shares count from its checkpoint on,"
        yield "which is taken as true, and by how much they may fall short is not known"
    done = counted(replay.commands, "command"), counted(replay.offsets, "offset")
    yield f"{done[0]} and {done[1]} lead to the market on the files"
    most = cut_off(max((short for row in rows for short in row.short), default=Fraction(0)))
    wrong = sum(not row.holds for row in rows)
    if wrong:
        yield f"{wrong} of {counted(len(rows), 'depositor')} above the exact share, or short of it by more than allowed"
    else:
        yield f"{counted(len(rows), 'depositor')}: none above its exact share, none short of it by more than {most}"
    if result.audit is None:
        yield f"audit ends with '{result.why_no_audit}': its rows could not be compared"
    elif not result.faults:
        yield f"audit says the same in {counted(result.audit.of, 'row')}, and each exact share lies within"
    yield "this shows one journal and proves nothing: the replies are those of the program that it checks"


def as_object(result: Result) -> Dict[str, Any]:
    """What a recheck comes to, as an object."""
    from .stated import spelt  # not at the top: the page of a statement stands on that of a market, and that on this

    rows = []
    for row in result.rows:
        told: Dict[str, object] = dict(zip(KEYS, row.cells))
        told["balance_fraction"], told["gain_fraction"] = spelt(row.share.balance), spelt(row.share.gain)
        told["holds"] = row.holds
        rows.append(told)
    replay = result.replay
    return {
        "holds": not result.faults, "depositors": rows, "faults": result.faults, "commands": replay.commands,
        "offsets": replay.offsets, "shares_since_generation": replay.start.generation if replay.start else 1,
        "why_no_audit": result.why_no_audit, "said": list(summed_up(result)),
    }


def main(words: List[str]) -> int:
    parser = parser_of("recheck", __doc__, EXAMPLES)
    parser.add_argument("folder", metavar="FOLDER", help="the market's folder, which may be anybody's")
    parser.add_argument("--archive", metavar="DIR", help="the generations before, as liq.archive keeps them")
    add_seconds(parser, SECONDS)
    add_forms(parser, rows=True)
    asked = parser.parse_args(words)

    def tell() -> int:
        with bounded(asked.seconds), Bar() as bar:
            result = recheck(asked.folder, archive=asked.archive, bar=bar)
            if asked.json:
                said = as_json(as_object(result))
            elif asked.csv:
                said = as_csv(KEYS, (row.cells for row in result.rows))
            else:
                said = "".join(f"{line}\n" for line in said_of(result))
        sys.stdout.write(said)
        return 1 if result.faults else 0

    return ended("recheck", tell, asked.json)


def command() -> int:
    """The command, with the words of its process."""
    return as_process(main)


if __name__ == "__main__":
    sys.exit(command())
