"""Accounts beside the protocol, which move nothing of it: stakers, and reward units."""
from collections import deque
from fractions import Fraction
from typing import Any, Callable, Dict, Iterable, List, Tuple

from ..journal import DepositRow
from ..refusals import AmountLimit, AmountZero, OutOfPlace, Refusal, ShortStake, TagRate, TagTwice
from ..shares import PlainLedger
from .amounts import ONE, STEP, part_of, refuse, rounded_up
from .owed import weight_of
from .pool import Place, gain_by, place_after
from ..grammar import read_asked
from .requests import check_accounts, refusal_text
from .state import Event, Fee, Market, Offset, Own

STAKED_MOST = 10**18
YEAR = 525_600
UNITS_A_MINUTE = 30_000
SHARED_LEAST = 10**9  # 1,000 LUSD in the pool

# ---- stakers


class Staker:
    """What is kept of an account: its stake, what it has gained (gwei and millionths of a LUSD), and its weight."""

    def __init__(self) -> None:
        self.stake = self.weight = self.shares = self.changes = 0
        self.gained: List[Any] = [0, 0]
        self.marks: List[Any] = [0, 0]


class Stakers:
    """All stakers, and what one unit of stake was given since the beginning. With `Fraction` in the place of the
    quotient that is rounded down, gains are the exact shares."""

    def __init__(self, divide: Callable[[int, int], Any] = lambda amount, divisor: amount // divisor) -> None:
        self.divide = divide
        self.staked = self.shares = 0
        self.unshared, self.sums = [0, 0], [0, 0]
        self.rows: Dict[int, Staker] = {}

    def share(self, fee: Fee) -> None:
        """A fee goes to all who have a stake; where nobody has one it stays unshared."""
        self.shares += self.staked > 0
        for asset, amount in enumerate((fee.coll, fee.lusd)):
            if self.staked:
                self.sums[asset] += self.divide(amount * ONE, self.staked)
            else:
                self.unshared[asset] += amount

    def settle(self, row: Staker) -> None:
        """Counts what an account gained since its last change, and its weight."""
        for asset, reached in enumerate(self.sums):
            row.gained[asset] += self.divide(row.stake * (reached - row.marks[asset]), ONE)
        row.weight += row.stake * (self.shares - row.shares)
        row.marks, row.shares = list(self.sums), self.shares

    def change(self, account: int, amount: int, is_out: bool) -> None:
        """A stake is put in or taken out. Raises its refusal."""
        has = self.rows[account].stake if account in self.rows else 0
        more = -amount if is_out else amount
        check_accounts((account,))
        refuse(amount == 0, AmountZero)
        refuse(self.staked + more > STAKED_MOST, AmountLimit, self.staked + more, STAKED_MOST)
        refuse(has + more < 0, ShortStake, amount, has)
        row = self.rows.setdefault(account, Staker())
        self.settle(row)
        row.stake += more
        row.changes += 1
        self.staked += more

    def answer(self, events: Iterable[Event], records: int, lines: Iterable[str]) -> List[str]:
        """The replies to lines beside these events of so many records. Raises NoRequest, of the first that is none."""
        fees = deque(event for event in events if isinstance(event, Fee))
        told, least = [], 0
        for at, account, verb, amount in [read_asked("staking", line) for line in lines]:
            try:
                refuse(not least <= at <= records, OutOfPlace, at, least, records)
                least = at
                while fees and fees[0].record <= least:
                    self.share(fees.popleft())
                self.change(account, amount, verb == "unstake")
                told.append("ok")
            except Refusal as refusal:
                told.append(refusal_text(refusal))
        for fee in fees:
            self.share(fee)
        for row in self.rows.values():
            self.settle(row)
        return told


def staking_text(events: Iterable[Event], records: int, lines: Iterable[str]) -> List[str]:
    """What `staking` writes. Raises NoRequest."""
    stakers = Stakers()
    told = stakers.answer(events, records, lines)
    for account, row in sorted(stakers.rows.items()):
        coll, lusd = row.gained
        told.append(f"{account} {row.stake} {coll} {lusd} {rounded_up(row.weight, ONE) + row.changes}")
    return [*told, f"unshared {stakers.unshared[0]} {stakers.unshared[1]}"]


def exact_fees(events: Iterable[Event], records: int, lines: Iterable[str]) -> Dict[int, List[Fraction]]:
    """The exact share that each account has of all fees: gwei, and millionths of a LUSD."""
    stakers = Stakers(Fraction)
    stakers.answer(events, records, lines)
    return {account: [Fraction(gained) for gained in row.gained] for account, row in sorted(stakers.rows.items())}


# ---- reward units


def issued(minute: int) -> int:
    """The units that were issued up to a minute: 30,000 in each one of the first year, then half as many a year."""
    years = range(UNITS_A_MINUTE.bit_length())
    return sum(min(max(0, minute - year * YEAR), YEAR) * (UNITS_A_MINUTE >> year) for year in years)


class Earner:
    """What is kept of a depositor: its deposit as recorded, what it has earned, and what its allowance is made of."""

    def __init__(self) -> None:
        self.recorded = DepositRow(0, ONE, 0, 0, 0)
        self.earned = self.weight = self.withheld = self.costs = self.operations = 0


class Earners:
    """All depositors, and the sums of what a whole deposit was given."""

    def __init__(self) -> None:
        self.place, self.total, self.sum = Place(ONE, 0, 0), 0, 0
        self.finished: Dict[Tuple[int, int], int] = {}
        self.rows: Dict[int, Earner] = {}
        self.minute = self.unshared = 0

    def deal(self, minute: int) -> None:
        """The units that are due go to all deposits, or stay unshared."""
        due = issued(minute) - issued(self.minute)
        self.minute = minute
        if due == 0 or self.total < SHARED_LEAST:
            self.unshared += due
            return
        self.sum += due * self.place.p // self.total
        for row in self.rows.values():
            row.withheld += rounded_up(due * (rounded_up(row.weight, STEP) + row.operations), self.total)
            row.costs += weight_of(row.recorded, self.place)

    def reading(self, row: Earner) -> int:
        """What a deposit has earned since its owner's last operation."""
        return gain_by(row.recorded, self.place, self.sum, self.finished)

    def follow(self, event: Event) -> None:
        """An event of the Stability Pool; what is due is dealt with before it."""
        if isinstance(event, Own):
            self.deal(event.minute)
            row = self.rows.setdefault(event.account, Earner())
            row.earned += self.reading(row)
            row.recorded = DepositRow(event.amount, self.place.p, self.sum, self.place.scale, self.place.epoch)
            row.operations += 1
            self.total += event.put - event.paid
        elif isinstance(event, Offset):
            self.deal(event.minute)
            for row in self.rows.values():
                row.weight += weight_of(row.recorded, self.place)
            after = place_after(self.place, event.debt, event.total)
            if after[1:] != self.place[1:]:
                self.finished[self.place.epoch, self.place.scale] = self.sum
                self.sum = 0
            self.place = after
            self.total -= event.debt


def rewards_text(market: Market, lines: Iterable[str]) -> List[str]:
    """What `rewards` writes, for a market whose events were kept since its beginning. Raises NoRequest."""
    told, earners = [], Earners()
    tags: Dict[int, Tuple[int, int]] = {}
    for _, account, front, rate in [read_asked("rewards", line) for line in lines]:
        try:
            check_accounts((account, front))
            refuse(rate > ONE, TagRate, rate, ONE)
            refuse(account in tags, TagTwice, account)
            tags[account] = front, rate
            told.append("ok")
        except Refusal as refusal:
            told.append(refusal_text(refusal))
    for event in market.events or []:
        earners.follow(event)
    earners.deal(market.minute)
    for account, row in sorted(earners.rows.items()):
        reward = row.earned + earners.reading(row)
        allowance = row.withheld + rounded_up(row.costs, STEP) + 4 * row.operations
        kept = part_of(reward, tags[account][1]) if account in tags else reward
        told.append(f"{account} {reward} {allowance} {kept} {tags.get(account, '-')[0]} {reward - kept}")
    return [*told, f"issued {issued(market.minute)} unshared {earners.unshared}"]


def exact_rewards(market: Market) -> Dict[int, Fraction]:
    """The exact share that each depositor has of all units: by the plain ledger, in which a sharing gives as an offset
    does that takes nothing over."""
    ledger, total, minute = PlainLedger(), 0, 0
    last = Offset(0, market.minute, 0, 0, 1)  # so that what is due by now is dealt with
    for event in [*(event for event in market.events or [] if not isinstance(event, Fee)), last]:
        due, minute = issued(event.minute) - issued(minute), event.minute
        if due and total >= SHARED_LEAST:
            ledger.offset(0, due, total)
        if isinstance(event, Own):
            ledger.change(event.account, event.put, event.paid)
            total += event.put - event.paid
        else:
            ledger.offset(event.debt, 0, event.total)
            total -= event.debt
    return {account: ledger.share(account).gain for account in ledger.accounts}
