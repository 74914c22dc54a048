"""What is owed: each depositor beside the plain ledger, in whole numbers around it and in exact fractions."""
from itertools import accumulate
from typing import Dict, Iterable, List

from ..journal import DepositRow
from ..shares import PlainLedger
from ..words import AuditRow
from .amounts import ONE, STEP, rounded_up
from .pool import Place, place_after, position
from .state import Event, Market, Offset, Own

OFFSET_COLL_MOST, OFFSETS_MOST, DEPOSITORS_MOST = 10**19, 10_000, 1_000


class Depositor:
    """What is known of a depositor beside the protocol: its share from below and from above, its weight, and how
    many operations of its own it made. Gains are cumulative, in gwei; balances are in millionths of a LUSD."""

    def __init__(self) -> None:
        self.low = self.high = self.gain_low = self.gain_high = 0
        self.paid = self.weight = self.operations = 0
        self.recorded = DepositRow(0, ONE, 0, 0, 0)

    def change(self, event: Own, place: Place) -> None:
        """An operation of its own."""
        self.low = max(0, self.low + event.put - event.paid)
        self.high += event.put - event.paid
        self.paid += event.gain
        self.operations += 1
        self.recorded = DepositRow(event.amount, place.p, 0, place.scale, place.epoch)

    def offset(self, event: Offset, place: Place) -> None:
        """The pool takes over a debt: it takes the same part of each balance, and gives by the balances before it."""
        self.gain_low += event.coll * self.low // event.total
        self.gain_high += rounded_up(event.coll * self.high, event.total)
        self.low = self.low * (event.total - event.debt) // event.total
        self.high = rounded_up(self.high * (event.total - event.debt), event.total)
        self.weight += weight_of(self.recorded, place)


def weight_of(recorded: DepositRow, place: Place) -> int:
    """How much rounding an offset may cost a recorded amount: a 10^9th of it for each scale between, rounded up."""
    if place.epoch != recorded.epoch:
        return 0
    return rounded_up(recorded.amount, STEP ** (place.scale - recorded.scale))


def depositors(events: Iterable[Event]) -> Dict[int, Depositor]:
    """Each account that made an operation of its own at the Stability Pool, followed through its events."""
    found: Dict[int, Depositor] = {}
    place = Place(ONE, 0, 0)
    for event in events:
        if isinstance(event, Own):
            found.setdefault(event.account, Depositor()).change(event, place)
        elif isinstance(event, Offset):
            for depositor in found.values():
                depositor.offset(event, place)
            place = place_after(place, event.debt, event.total)
    return dict(sorted(found.items()))


def audit_limit(events: Iterable[Event]) -> int:
    """The first number that is above a limit of `audit`: what offsets brought up to one that passes it, in gwei, how
    many they are, how many depositors; 0 where none is."""
    offsets = [event.coll for event in events if isinstance(event, Offset)]
    accounts = {event.account for event in events if isinstance(event, Own)}
    passed = [reached for reached in accumulate(offsets) if reached > OFFSET_COLL_MOST][:1]
    counted = ((len(offsets), OFFSETS_MOST), (len(accounts), DEPOSITORS_MOST))
    return (passed + [found for found, most in counted if found > most] + [0])[0]


def audit_text(market: Market) -> List[str]:
    """What `audit` tells, for a market whose events were kept since its beginning."""
    rows, limit = [], audit_limit(market.events or [])
    if limit:
        return [f"limit {limit}"]
    for account, of in depositors(market.events or []).items():
        deposit = market.deposits.get(account)
        balance, gain = position(market, deposit) if deposit else (0, 0)
        rows.append(AuditRow(
            account, of.low, of.high, balance, rounded_up(of.weight, STEP) + of.operations,
            of.gain_low, of.gain_high, of.paid + gain, rounded_up(12 * of.weight, STEP) + 15 * of.operations,
        ))
    return [*(" ".join(map(str, row)) for row in rows), f"within {sum(row.holds for row in rows)} of {len(rows)}"]


def exact_shares(events: Iterable[Event]) -> PlainLedger:
    """The plain ledger behind these events."""
    ledger = PlainLedger()
    for event in events:
        if isinstance(event, Own):
            ledger.change(event.account, event.put, event.paid)
        elif isinstance(event, Offset):
            ledger.offset(event.debt, event.coll, event.total)
    return ledger
