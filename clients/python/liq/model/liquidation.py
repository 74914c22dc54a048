"""Liquidation: what becomes of a trove whose ratio is too low."""
from typing import List

from ..refusals import AmountLimit, AmountZero, LastTrove, NoTrove, NotLiquidatable, PoolTooSmall, Refusal, SumLimit
from ..replies import Liquidated
from .amounts import CAP_WORTH, ETHER, GAS_PART, LEAST_RATIO, LOWEST_MOST, RESERVE, SUM_MOST, refuse
from .pool import offset
from .state import Fate, Market, Values, row_of
from .troves import entire, growth, lift


def plain(coll: int, debt: int, pool: int) -> Liquidated:
    """A 200th for the liquidator; the pool takes over what it can, the other troves the rest."""
    gas = coll // GAS_PART
    rest, pool_debt = coll - gas, min(debt, pool)
    pool_coll = rest * pool_debt // debt
    return Liquidated(gas, pool_debt, pool_coll, debt - pool_debt, rest - pool_coll, 0)


def redistributed_whole(coll: int, debt: int) -> Liquidated:
    """A 200th for the liquidator, all else for the other troves."""
    gas = coll // GAS_PART
    return Liquidated(gas, 0, 0, debt, coll - gas, 0)


def capped(coll: int, debt: int, price: int) -> Liquidated:
    """Collateral worth 110 percent of the debt is used; the owner may claim what is left over."""
    used = debt * CAP_WORTH // price
    gas = used // GAS_PART
    return Liquidated(gas, debt, used - gas, 0, 0, coll - used)


def one_by(market: Market, account: int) -> Liquidated:
    """What becomes of a trove. Raises why it may not be liquidated."""
    trove = row_of(market.troves, account, NoTrove)
    refuse(len(market.troves) == 1, LastTrove, 1)
    (coll, debt), price, pool, recovery = entire(market, trove), market.price, market.pool_lusd, market.is_recovery()
    worth, hundredth = coll * price * 100, debt * ETHER  # worth as many percent as there are such hundredths in it
    if recovery and worth <= 100 * hundredth:
        struck = redistributed_whole(coll, debt)
    elif worth < LEAST_RATIO * hundredth:
        struck = plain(coll, debt, pool)
    else:
        is_kept = not recovery or coll * market.total_debt >= market.total_coll * debt
        refuse(is_kept, NotLiquidatable, coll, debt, price, market.total_coll, market.total_debt)
        refuse(pool < debt, PoolTooSmall, pool, debt)
        struck = capped(coll, debt, price)
    others = market.stakes - trove.stake
    for reached, spread in ((market.sum_coll, struck.spread_coll), (market.sum_debt, struck.spread_debt)):
        grown = reached + growth(spread, others)
        refuse(grown > SUM_MOST, SumLimit, grown)
    return struck


def strike(market: Market, liquidator: int, account: int, struck: Liquidated) -> None:
    """The trove leaves, the pool offsets, the rest is redistributed, stakes are noted, and all are paid."""
    lift(market, account)
    if struck.pool_debt:
        offset(market, struck.pool_debt, struck.pool_coll)
    if struck.spread_debt:
        market.sum_coll += growth(struck.spread_coll, market.stakes)
        market.sum_debt += growth(struck.spread_debt, market.stakes)
        market.default_coll += struck.spread_coll
        market.default_debt += struck.spread_debt
    market.snap_stakes, market.snap_coll = market.stakes, market.total_coll
    market.leave(account, struck.surplus)
    market.reserve -= RESERVE
    market.pay(liquidator, struck.gas, RESERVE)
    if market.fates is not None:
        gas, pool_debt, pool_coll, spread_debt, spread_coll, surplus = struck
        coll, debt = gas + pool_coll + spread_coll + surplus, pool_debt + spread_debt
        market.fates.append(Fate(
            market.records, market.minute, liquidator, account, coll, debt, gas, pool_debt, pool_coll, spread_debt,
            spread_coll, 0, 0, surplus, False))


def liquidate(market: Market, liquidator: int, account: int) -> Values:
    """`liquidate`: one trove leaves. Gives what became of it."""
    struck = one_by(market, account)
    market.admit()
    strike(market, liquidator, account, struck)
    return struck


def liquidate_lowest(market: Market, liquidator: int, count: int) -> Values:
    """`liquidate_lowest`: the trove at the list's end, again and again. Gives how many, and what the liquidator and
    the pool got and took over in all."""
    refuse(count == 0, AmountZero)
    refuse(count > LOWEST_MOST, AmountLimit, count, LOWEST_MOST)
    refuse(len(market.order) < 2, LastTrove, len(market.order))
    one_by(market, market.order[-1][1])
    market.admit()
    done: List[Liquidated] = []
    while len(done) < count:
        try:
            struck = one_by(market, market.order[-1][1])
        except Refusal:
            break
        strike(market, liquidator, market.order[-1][1], struck)
        done.append(struck)
    gas, pool_debt, pool_coll = (sum(column) for column in list(zip(*done))[:3])
    return len(done), gas, pool_debt, pool_coll
