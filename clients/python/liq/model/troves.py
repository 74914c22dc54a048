"""Troves: what redistributions give them, their stakes, and the list of them."""
from bisect import bisect_left, insort
from typing import Tuple

from ..journal import TroveRow
from .amounts import ONE
from .state import Market


def growth(amount: int, stakes: int) -> int:
    """What a redistribution gives each unit of stake, over `ONE`."""
    return amount * ONE // stakes


def pending(market: Market, trove: TroveRow) -> Tuple[int, int]:
    """The collateral and the debt that redistributions gave a trove since its mark."""
    stake = trove.stake
    return stake * (market.sum_coll - trove.mark_coll) // ONE, stake * (market.sum_debt - trove.mark_debt) // ONE


def entire(market: Market, trove: TroveRow) -> Tuple[int, int]:
    """A trove's collateral and debt with what is pending."""
    coll, debt = pending(market, trove)
    return trove.coll + coll, trove.debt + debt


def stake_by(coll: int, snap_stakes: int, snap_coll: int) -> int:
    """The stake of so much collateral, by the stakes and the collateral behind the last liquidation."""
    return max(1, coll * snap_stakes // snap_coll) if snap_coll else coll


def lift(market: Market, account: int) -> None:
    """Takes a trove out of the pools and the list."""
    trove = market.troves.pop(account)
    coll, debt = pending(market, trove)
    market.active_coll -= trove.coll
    market.active_debt -= trove.debt
    market.default_coll -= coll
    market.default_debt -= debt
    market.stakes -= trove.stake
    del market.order[bisect_left(market.order, (trove.key, account))]


def place(market: Market, account: int, coll: int, debt: int) -> None:
    """Sets a trove down with these amounts, nothing pending, and a new stake."""
    stake = stake_by(coll, market.snap_stakes, market.snap_coll)
    trove = TroveRow(coll, debt, stake, market.sum_coll, market.sum_debt)
    market.troves[account] = trove
    market.active_coll += coll
    market.active_debt += debt
    market.stakes += stake
    insort(market.order, (trove.key, account))
