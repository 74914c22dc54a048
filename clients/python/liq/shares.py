"""A plain ledger of the Stability Pool: each depositor's share in exact fractions, and by how much liq may fall short.

The ledger knows no product, sum, scale or epoch, by which liq keeps the pool: an offset takes the same part of each
balance, and gives ether by the balances before it. All shares are whole numbers over one denominator, and over that of
the share with which an account began, so nothing is rounded.

Operations and offsets are noted. What each operation has become is worked out for all of them together, when a share is
asked for: of the older and of the newer half of the offsets by itself, and so on, so that the numbers stay as short as
can be. So an operation and an offset cost the same for one depositor and for a thousand.
"""
from fractions import Fraction
from math import gcd, lcm
from typing import Dict, List, NamedTuple, Optional, Tuple

from .journal import Checkpoint, DepositRow

RISES_MOST = 16  # of the scale, behind which what is left of a share counts as nothing: less than 10^-100
Pair = Tuple[int, int]  # numerators of a balance and of a gain
Span = Tuple[int, int, int]  # offsets in a row: what they leave and what they bring of each part, over the last number


class Share(NamedTuple):
    """What a depositor has, and all the ether that it has gained so far, paid out or not."""

    balance: Fraction
    gain: Fraction


class PlainLedger:
    """The exact shares of all depositors."""

    def __init__(self) -> None:
        self.denominator = 1
        self.begun: Dict[int, int] = {}  # each account, and the denominator of the share with which it began
        self.offsets: List[Span] = []
        self.moves: List[Dict[int, Pair]] = [{}]  # what accounts put in less what they took out, before each offset
        self._behind: Optional[Dict[int, Pair]] = None  # what they have behind all that was noted

    @property
    def size(self) -> int:
        """How many bytes the shares take at most, nearly."""
        return len(self.begun) * self.denominator.bit_length() // 4

    @property
    def accounts(self) -> List[int]:
        """Who has or had a share."""
        return sorted(self.begun)

    def change(self, account: int, put: int = 0, paid: int = 0) -> None:
        """An operation of the depositor's own: LUSD in, LUSD out."""
        self._move(account, (put - paid) * self.begun.setdefault(account, 1), 0)

    def begin(self, account: int, share: Share) -> None:
        """A depositor that has a share already."""
        over = self.begun[account] = lcm(share.balance.denominator, share.gain.denominator)
        self._move(account, int(share.balance * over), int(share.gain * over))

    def offset(self, debt: int, coll: int, total: int) -> None:
        """The pool, of `total` LUSD, takes over a debt and receives ether."""
        common = gcd(debt, coll, total) if total else 1
        self.offsets.append(((total - debt) // common, coll // common, total // common))
        self.denominator *= total // common
        self.moves.append({})
        self._behind = None

    def share(self, account: int) -> Share:
        """The exact share of a depositor."""
        if self._behind is None:
            self._behind = self._brought_up()
        over = self.denominator * self.begun.get(account, 1)
        balance, gain = self._behind.get(account, (0, 0))
        return Share(Fraction(balance, over), Fraction(gain, over))

    @property
    def sums(self) -> Share:
        """The exact shares of all, where none of them began with one."""
        rows = self._behind = self._behind or self._brought_up()
        return Share(*(Fraction(sum(row[part] for row in rows.values()), self.denominator) for part in (0, 1)))

    def _move(self, account: int, balance: int, gain: int) -> None:
        had = self.moves[-1].get(account, (0, 0))
        self.moves[-1][account] = had[0] + balance, had[1] + gain
        self._behind = None

    def _brought_up(self) -> Dict[int, Pair]:
        """What all operations have become, over the denominator."""
        rows = self._over(0, len(self.offsets))[1] if self.offsets else {}
        return added(rows, self.moves[-1], self.denominator)

    def _over(self, low: int, high: int) -> Tuple[Span, Dict[int, Pair]]:
        """The offsets from `low` on and before `high` in a row, and what the operations before each of them have become
        behind them, over the last number of the row."""
        if high - low == 1:
            return self.offsets[low], brought_over(self.moves[low], self.offsets[low])
        middle = (low + high) // 2
        early, rows = self._over(low, middle)
        late, newer = self._over(middle, high)
        span = early[0] * late[0], early[1] * late[2] + early[0] * late[1], early[2] * late[2]
        return span, added(brought_over(rows, late), newer, early[2])


def brought_over(rows: Dict[int, Pair], span: Span) -> Dict[int, Pair]:
    """What balances and gains have become behind offsets in a row."""
    left, given, over = span
    return {account: (balance * left, gain * over + balance * given) for account, (balance, gain) in rows.items()}


def added(rows: Dict[int, Pair], newer: Dict[int, Pair], over: int) -> Dict[int, Pair]:
    """Rows, and newer ones added to them times a number."""
    for account, (balance, gain) in newer.items():
        had = rows.get(account, (0, 0))
        rows[account] = had[0] + balance * over, had[1] + gain * over
    return rows


def share_in(start: Checkpoint, deposit: DepositRow) -> Share:
    """What a deposit has and has gained by the words of a checkpoint, without rounding.

    What more than 16 rises of the scale have left, each a part of 10^-9, counts as nothing: less than 10^-100."""
    balance, gain = Fraction(0), Fraction(-deposit.sum * deposit.amount, deposit.p)
    for rise in range(RISES_MOST + 1):
        place, over = (deposit.epoch, deposit.scale + rise), deposit.p * 10 ** (9 * rise)
        grown = start.finished.get(place, 0)
        if place == (start.epoch, start.scale):
            balance, grown = Fraction(deposit.amount * start.p, over), start.sum
        if grown:
            gain += Fraction(grown * deposit.amount, over)
    return Share(balance, gain)


class Allowances:
    """By how much each depositor may fall short: docs/RULES.md, "What is owed"."""

    def __init__(self) -> None:
        self.p, self.scale, self.epoch = 10**18, 0, 0
        self.recorded: Dict[int, Tuple[int, int, int]] = {}
        self.weights: Dict[int, int] = {}
        self.operations: Dict[int, int] = {}

    def change(self, account: int, amount: int) -> None:
        """An own operation, which leaves an amount."""
        self.recorded[account] = amount, self.scale, self.epoch
        self.operations[account] = self.operations.get(account, 0) + 1

    def offset(self, debt: int, total: int) -> None:
        """The pool takes over a debt."""
        for account, (amount, scale, epoch) in self.recorded.items():
            if epoch == self.epoch and amount:
                rise = min(self.scale - scale, 3)  # an amount is below 10^27, so behind three the cost stays 1
                cost = -(-amount // 10 ** (9 * rise))
                self.weights[account] = self.weights.get(account, 0) + cost
        if debt == total:
            self.p, self.scale, self.epoch = 10**18, 0, self.epoch + 1
            return
        left = self.p * (total - debt)
        while left // total < 10**9:
            left *= 10**9
            self.scale += 1
        self.p = left // total

    def of(self, account: int) -> Tuple[int, int]:
        """The allowances of balance and gain."""
        weight, operations = self.weights.get(account, 0), self.operations[account]
        return -(-weight // 10**9) + operations, -(-12 * weight // 10**9) + 15 * operations
