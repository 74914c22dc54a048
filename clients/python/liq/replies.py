"""The replies of liq as named tuples: one for each verb and for each query, with the names of docs/REFERENCE.md.

Ether (`coll`, `gain`, `gas`, `drawn`, `surplus`) is in gwei, LUSD and debt are in millionths, a base rate over 10^18.
"""
from typing import Any, Dict, NamedTuple, Tuple, Type

# ---- what an accepted command replies


class Done(NamedTuple):
    """`price`, `fund`, `take`, `send`: nothing is told."""


class Advanced(NamedTuple):
    """`advance`: the new minute."""

    minute: int


class Opened(NamedTuple):
    """`open`: the trove's whole debt, and the fee in it."""

    debt: int
    fee: int


class Adjusted(NamedTuple):
    """`adjust`: the trove after it, and the fee."""

    coll: int
    debt: int
    fee: int


class Closed(NamedTuple):
    """`close`: the LUSD that was burned, and the ether that came back."""

    repaid: int
    coll: int


class Provided(NamedTuple):
    """`provide`: the deposit after it, and the gain that was paid."""

    amount: int
    gain: int


class Withdrawn(NamedTuple):
    """`withdraw`: the LUSD and the gain that were paid."""

    paid: int
    gain: int


class Moved(NamedTuple):
    """`gain_to_trove`: the gain, and the trove's collateral after it."""

    gain: int
    coll: int


class Liquidated(NamedTuple):
    """`liquidate`: the liquidator's ether, what the pool and what the other troves took over, what the owner may
    claim."""

    gas: int
    pool_debt: int
    pool_coll: int
    spread_debt: int
    spread_coll: int
    surplus: int


class LowestLiquidated(NamedTuple):
    """`liquidate_lowest`: how many, and the sums of the first three values of each."""

    count: int  # type: ignore[assignment]  # tuples have a call of that name, which is of no use for a row
    gas: int
    pool_debt: int
    pool_coll: int


class Redeemed(NamedTuple):
    """`redeem`: the LUSD that was burned, the ether drawn, the fee in it, and the new base rate."""

    redeemed: int
    drawn: int
    fee: int
    base: int


class Claimed(NamedTuple):
    """`claim`: the ether that was paid."""

    coll: int


class NextGeneration(NamedTuple):
    """`rotate`: the generation that begins."""

    generation: int


# ---- what a query replies


class Wallet(NamedTuple):
    """The ether and the LUSD of an account."""

    account: int
    coll: int
    lusd: int


class Trove(NamedTuple):
    """An account's trove with all that is pending for it."""

    account: int
    coll: int
    debt: int
    stake: int


class Deposit(NamedTuple):
    """What an account's deposit in the Stability Pool is worth, and what it has gained since its owner's last
    operation."""

    account: int
    balance: int
    gain: int


class Pools(NamedTuple):
    """The pools. `active` is what the troves have recorded, `default` what was spread over them since."""

    active_coll: int
    active_debt: int
    default_coll: int
    default_debt: int
    reserve: int
    surplus: int
    fee_coll: int
    fee_lusd: int
    pool_lusd: int
    pool_coll: int


class System(NamedTuple):
    """The market as a whole. `coll` and `debt` are those of all troves, `records` counts the accepted commands."""

    price: int
    minute: int
    base_rate: int
    fee_minute: int
    mode: int
    troves: int
    stakes: int
    coll: int
    debt: int
    records: int

    @property
    def recovery(self) -> bool:
        """Whether it is Recovery Mode."""
        return self.mode == 1


# ---- which row is whose

BY_VERB: Dict[str, Type[Tuple[Any, ...]]] = {
    "price": Done, "advance": Advanced, "fund": Done, "take": Done, "send": Done, "open": Opened, "adjust": Adjusted,
    "close": Closed, "provide": Provided, "withdraw": Withdrawn, "gain_to_trove": Moved, "liquidate": Liquidated,
    "liquidate_lowest": LowestLiquidated, "redeem": Redeemed, "claim": Claimed, "rotate": NextGeneration,
}
BY_QUERY: Dict[str, Type[Tuple[Any, ...]]] = {
    "wallet": Wallet, "trove": Trove, "deposit": Deposit, "pools": Pools, "system": System,
}


# ---- in which unit a field is

GWEI_FIELDS = {
    "coll", "gain", "gas", "pool_coll", "spread_coll", "surplus", "drawn", "active_coll", "default_coll", "fee_coll",
}
MILLIONTHS_FIELDS = {
    "debt", "fee", "repaid", "amount", "paid", "pool_debt", "spread_debt", "redeemed", "lusd", "balance", "active_debt",
    "default_debt", "reserve", "fee_lusd", "pool_lusd", "price",
}
RATE_FIELDS = {"base", "base_rate"}


def places_of(row: Type[Tuple[Any, ...]]) -> Dict[str, int]:
    """How many places behind the point a field of such a row has in ether, in LUSD or as a rate. A field that is not in
    it counts something else: accounts, minutes, stakes."""
    places = {name: 9 for name in GWEI_FIELDS}
    places.update({name: 6 for name in MILLIONTHS_FIELDS}, **{name: 18 for name in RATE_FIELDS})
    if row is Redeemed:
        places["fee"] = 9  # all other fees are LUSD
    return {name: places[name] for name in told_fields(row) if name in places}


def told_fields(row: Type[Tuple[Any, ...]]) -> Tuple[str, ...]:
    """The fields of a row that a reply has numbers for: all but the account that was asked for."""
    fields: Tuple[str, ...] = row._fields  # type: ignore[attr-defined]  # all rows are named tuples, and share no class
    return tuple(name for name in fields if name != "account")
