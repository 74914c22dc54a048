"""The Stability Pool: its product, its sums, and the position of a deposit."""
from typing import Dict, NamedTuple, Tuple

from ..journal import DepositRow
from ..refusals import AmountZero, NoDeposit, ShortTokens, TroveUnder
from .amounts import LEAST_RATIO, ONE, PRODUCT_LEAST, SCALES_READ, STEP, refuse, refuse_below
from .state import Market, Offset, Own, Values, row_of
from .troves import entire


class Place(NamedTuple):
    """A product, and the scale and the epoch in which it stands."""

    p: int
    scale: int
    epoch: int


def place_after(place: Place, debt: int, total: int) -> Place:
    """Where an offset of a debt leaves a pool of `total` LUSD."""
    if debt == total:
        return Place(ONE, 0, place.epoch + 1)
    left, rise = place.p * (total - debt), 0
    while left * STEP**rise // total < PRODUCT_LEAST:
        rise += 1
    return Place(left * STEP**rise // total, place.scale + rise, place.epoch)


def sum_growth(coll: int, p: int, total: int) -> int:
    """What an offset's collateral adds to the sum of its epoch and scale."""
    return coll * p // total


def balance_by(deposit: DepositRow, place: Place) -> int:
    """What offsets left of a deposit's amount, in LUSD."""
    rise = place.scale - deposit.scale
    if place.epoch != deposit.epoch or rise >= SCALES_READ:
        return 0
    left: int = deposit.amount * place.p // (deposit.p * STEP**rise)
    return left


def gain_by(deposit: DepositRow, place: Place, current: int, finished: Dict[Tuple[int, int], int]) -> int:
    """What a deposit has gained by the sums, that of the pool's place and the finished ones."""
    grown = 0
    for rise in range(SCALES_READ):
        scale = deposit.scale + rise
        is_here = scale == place.scale and deposit.epoch == place.epoch
        reached = current if is_here else finished.get((deposit.epoch, scale), 0)
        grown += deposit.amount * (reached if rise else reached - deposit.sum) // (deposit.p * STEP**rise)
    return grown


def position(market: Market, deposit: DepositRow) -> Tuple[int, int]:
    """The balance and the gain of a deposit; neither passes what the pool has."""
    place = Place(market.p, market.scale, market.epoch)
    gain = gain_by(deposit, place, market.sum, market.finished)
    return min(balance_by(deposit, place), market.pool_lusd), min(gain, market.pool_coll)


def offset(market: Market, debt: int, coll: int) -> None:
    """The pool takes over a debt, and receives collateral."""
    total = market.pool_lusd
    market.tell(Offset(market.records, market.minute, debt, coll, total))
    before = Place(market.p, market.scale, market.epoch)
    after = place_after(before, debt, total)
    reached = market.sum + sum_growth(coll, before.p, total)
    if (after.epoch, after.scale) != (before.epoch, before.scale):
        if reached:
            market.finished[before.epoch, before.scale] = reached
        reached = 0
    market.p, market.scale, market.epoch = after
    market.sum = reached
    market.pool_lusd -= debt
    market.pool_coll += coll


def own(market: Market, account: int, put: int = 0, paid: int = 0, gain: int = 0, balance: int = 0) -> int:
    """A depositor's own operation, which pays its gain: gives the new amount of the deposit."""
    amount = balance + put - paid
    if amount:
        market.deposits[account] = DepositRow(amount, market.p, market.sum, market.scale, market.epoch)
    else:
        market.deposits.pop(account, None)
    market.pool_lusd += put - paid
    market.pool_coll -= gain
    market.tell(Own(market.records, market.minute, account, put, paid, gain, amount))
    return amount


def provide(market: Market, account: int, lusd: int) -> Values:
    """`provide`: LUSD into the pool, the gain out of it."""
    refuse(lusd == 0, AmountZero)
    has = market.wallet(account)[1]
    refuse(has < lusd, ShortTokens, lusd, has)
    market.admit()
    deposit = market.deposits.get(account)
    balance, gain = position(market, deposit) if deposit else (0, 0)
    amount = own(market, account, lusd, 0, gain, balance)
    market.pay(account, gain, -lusd)
    return amount, gain


def withdraw(market: Market, account: int, lusd: int) -> Values:
    """`withdraw`: LUSD, at most the balance, and the gain out of the pool."""
    deposit = row_of(market.deposits, account, NoDeposit)
    if lusd and market.order:
        lowest = market.order[-1][1]
        refuse_below(TroveUnder, *entire(market, market.troves[lowest]), market.price, LEAST_RATIO, lowest)
    market.admit()
    balance, gain = position(market, deposit)
    paid = min(lusd, balance)
    own(market, account, 0, paid, gain, balance)
    market.pay(account, gain, paid)
    return paid, gain
