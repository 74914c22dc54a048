"""The state: a market's words and tables, its totals and its mode.

The names are those of `liq.journal.Checkpoint`, which is the same as a tuple.
"""
import copy
from typing import Any, Dict, List, NamedTuple, Optional, Tuple, Type, TypeVar, Union

from ..journal import VERBS, Checkpoint, DepositRow, KeptReply, TroveRow
from ..refusals import JournalFull, Refusal
from .amounts import CRITICAL_RATIO, ETHER, LIMIT, LIMIT_OF_VERSION_1, ONE, PRICE_OPENING, RECORDS_MOST, refuse


class Own(NamedTuple):
    """A depositor's own operation: LUSD put in and paid, the gain that was paid, and the amount that is left."""

    record: int
    minute: int
    account: int
    put: int
    paid: int
    gain: int
    amount: int


class Offset(NamedTuple):
    """The Stability Pool, of `total` LUSD, takes over a debt and receives collateral."""

    record: int
    minute: int
    debt: int
    coll: int
    total: int


class Fee(NamedTuple):
    """What a command paid into the fee pool."""

    record: int
    coll: int
    lusd: int


class Fate(NamedTuple):
    """What becomes of a trove at somebody else's command, `by` an account: a liquidation, or what a redemption takes.

    `coll` and `debt` are what it had. Of these `gas` goes to the liquidator; the pool and the other troves take over or
    are redeemed their parts; the owner may claim the surplus. What is left of both, the trove has: it stays where
    `stays` is set.
    """

    record: int
    minute: int
    by: int
    account: int
    coll: int
    debt: int
    gas: int
    pool_debt: int
    pool_coll: int
    spread_debt: int
    spread_coll: int
    redeemed: int
    drawn: int
    surplus: int
    stays: bool


Event = Union[Own, Offset, Fee]
Row = TypeVar("Row")
Values = Tuple[int, ...]  # of a reply
WORDS = tuple(name for name in Checkpoint._fields if name != "version")[:25]
VALUES = {  # how many values stand behind `ok`
    **dict.fromkeys(VERBS, 0), "advance": 1, "open": 2, "adjust": 3, "close": 2, "provide": 2, "withdraw": 2,
    "gain_to_trove": 2, "liquidate": 6, "liquidate_lowest": 4, "redeem": 4, "claim": 1, "rotate": 1,
}


def row_of(table: Dict[int, Row], account: int, refusal: Type[Refusal]) -> Row:
    """The row that an account has in a table. Raises the refusal where it has none."""
    refuse(account not in table, refusal, account)
    return table[account]


class Market:
    """All that the rules know of a market. It begins empty, or with a checkpoint.

    `order` is the list of troves as keys and accounts, that of the lowest ratio last. `events` is what became of the
    Stability Pool and of fees, and `fates` what became of troves at somebody else's command, where somebody keeps it;
    None where nobody does.
    """

    def __init__(self, limit: int = LIMIT) -> None:
        self.limit = limit
        self.price, self.minute, self.base_rate, self.fee_minute = PRICE_OPENING, 0, 0, 0
        self.generation, self.records, self.brought = 1, 0, 0
        self.active_coll = self.active_debt = self.default_coll = self.default_debt = 0
        self.reserve = self.surplus = self.fee_coll = self.fee_lusd = 0
        self.sum_coll = self.sum_debt = self.stakes = self.snap_stakes = self.snap_coll = 0
        self.p, self.scale, self.epoch, self.sum, self.pool_lusd, self.pool_coll = ONE, 0, 0, 0, 0, 0
        self.wallets: Dict[int, Tuple[int, int]] = {}
        self.troves: Dict[int, TroveRow] = {}
        self.surpluses: Dict[int, int] = {}
        self.finished: Dict[Tuple[int, int], int] = {}
        self.deposits: Dict[int, DepositRow] = {}
        self.clients: Dict[int, KeptReply] = {}
        self.order: List[Tuple[int, int]] = []
        self.events: Optional[List[Event]] = None
        self.fates: Optional[List[Fate]] = None

    @classmethod
    def begun_with(cls, checkpoint: Checkpoint) -> "Market":
        """The market that a checkpoint is of, which is taken to be sound."""
        market = cls(LIMIT if checkpoint.version == 2 else LIMIT_OF_VERSION_1)
        for name in WORDS:
            setattr(market, name, getattr(checkpoint, name))
        market.wallets, market.troves = dict(checkpoint.wallets), dict(checkpoint.troves)
        market.surpluses, market.finished = dict(checkpoint.surpluses), dict(checkpoint.finished)
        market.deposits = dict(checkpoint.deposits)
        for client, row in checkpoint.clients.items():
            market.clients[client] = row._replace(values=row.values[: VALUES[row.verb]])
        market.order = sorted((trove.key, account) for account, trove in market.troves.items())
        return market

    def checkpoint(self) -> Checkpoint:
        """The market as a checkpoint. Its tables ascend, and have no empty rows."""
        words: Dict[str, Any] = {name: getattr(self, name) for name in WORDS}
        return Checkpoint(
            2 if self.limit == LIMIT else 1, **words,
            wallets={account: row for account, row in sorted(self.wallets.items()) if any(row)},
            troves=dict(sorted(self.troves.items())),
            surpluses=dict(sorted(self.surpluses.items())),
            finished=dict(sorted(self.finished.items())),
            deposits=dict(sorted(self.deposits.items())),
            clients={
                client: row._replace(values=(*row.values, 0, 0, 0, 0, 0, 0)[:6])
                for client, row in sorted(self.clients.items())
            },
        )

    def copied(self) -> "Market":
        """The same market once more. Rows are never changed, so tables alone are made anew."""
        made = copy.copy(self)
        for name, value in vars(self).items():
            if isinstance(value, (dict, list)):
                setattr(made, name, value.copy())
        return made

    # ---- totals and the mode

    @property
    def total_coll(self) -> int:
        """The collateral of all troves."""
        return self.active_coll + self.default_coll

    @property
    def total_debt(self) -> int:
        """The debt of all troves, which is all LUSD."""
        return self.active_debt + self.default_debt

    def is_recovery(self) -> bool:
        """Whether it is Recovery Mode: all collateral is worth less than 150 percent of all debt."""
        debt, coll = self.active_debt + self.default_debt, self.active_coll + self.default_coll
        return coll * self.price * 100 < CRITICAL_RATIO * debt * ETHER

    # ---- wallets and the surplus

    def wallet(self, account: int) -> Tuple[int, int]:
        """The collateral and the LUSD of an account."""
        return self.wallets.get(account, (0, 0))

    def pay(self, account: int, coll: int = 0, lusd: int = 0) -> None:
        """Puts amounts into a wallet, or takes out those below 0."""
        has_coll, has_lusd = self.wallets.get(account, (0, 0))
        self.wallets[account] = has_coll + coll, has_lusd + lusd

    def leave(self, owner: int, coll: int) -> None:
        """Collateral that an owner may claim."""
        if coll:
            self.surplus += coll
            self.surpluses[owner] = self.surpluses.get(owner, 0) + coll

    # ---- what a command that is allowed does beside its effect

    def admit(self) -> None:
        """Counts a command that its verb allows. Raises JournalFull where the generation has as many as it takes."""
        refuse(self.records >= RECORDS_MOST, JournalFull, self.records)
        self.records += 1

    def tell(self, event: Event) -> None:
        """Keeps what became of the pool or of fees, where that is wanted."""
        if self.events is not None:
            self.events.append(event)
