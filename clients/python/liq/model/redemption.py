"""Redemption: LUSD for ether, from the troves of the lowest ratios."""
from typing import List, NamedTuple, Tuple

from ..refusals import AmountZero, Bootstrap, FeeEatsAll, NothingRedeemed, NoSurplus, ShortTokens, SystemUnder
from .amounts import BOOTSTRAP, ETHER, LEAST_NET_DEBT, LEAST_RATIO, RESERVE, part_of, refuse, refuse_below
from .rate import base_rate_now, check_bound, check_fee, redeem_rate, risen
from .state import Fate, Fee, Market, Values
from .troves import entire, lift, place


class Cut(NamedTuple):
    """What is taken from one trove, of its entire collateral and debt."""

    account: int
    coll: int
    debt: int
    taken: int
    drawn: int

    @property
    def is_whole(self) -> bool:
        """Whether all is taken, so that the trove is closed."""
        return self.taken == self.debt - RESERVE


def cuts_of(market: Market, lusd: int) -> Tuple[List[Cut], int]:
    """The cuts that a redemption makes, and the debt beside the reserve of the first trove that it visited, or 0."""
    cuts: List[Cut] = []
    first, left, troves = 0, lusd, len(market.troves)
    for _, account in reversed(market.order):
        if left == 0:
            break
        coll, debt = entire(market, market.troves[account])
        if coll * market.price * 100 < LEAST_RATIO * debt * ETHER:
            continue
        first = first or debt - RESERVE
        taken = min(left, debt - RESERVE)
        cut = Cut(account, coll, debt, taken, taken * ETHER // market.price)
        if cut.is_whole:
            if troves == 1:
                break
            troves -= 1
        elif debt - taken - RESERVE < LEAST_NET_DEBT:
            break
        cuts.append(cut)
        left -= taken
    return cuts, first


def redeem(market: Market, account: int, lusd: int, bound: int) -> Values:
    """`redeem`: LUSD burned, collateral drawn. Gives both, the fee in the latter, and the new base rate."""
    refuse(lusd == 0, AmountZero)
    check_bound(bound)
    refuse(market.minute < BOOTSTRAP, Bootstrap, market.minute, BOOTSTRAP)
    supply, has = market.total_debt, market.wallet(account)[1]
    refuse_below(SystemUnder, market.total_coll, supply, market.price, LEAST_RATIO)
    refuse(has < lusd, ShortTokens, lusd, has)
    cuts, first = cuts_of(market, lusd)
    refuse(not cuts, NothingRedeemed, lusd, first)
    redeemed, drawn = sum(cut.taken for cut in cuts), sum(cut.drawn for cut in cuts)
    base_rate = risen(base_rate_now(market), redeemed, supply)
    fee = part_of(drawn, redeem_rate(base_rate))
    refuse(fee >= drawn, FeeEatsAll, fee, drawn)
    check_fee(fee, bound, drawn)
    market.admit()
    for cut in cuts:
        lift(market, cut.account)
        left = cut.coll - cut.drawn
        if cut.is_whole:
            market.reserve -= RESERVE
            market.leave(cut.account, left)
        else:
            place(market, cut.account, left, cut.debt - cut.taken)
        if market.fates is not None:
            market.fates.append(Fate(
                market.records, market.minute, account, cut.account, cut.coll, cut.debt, 0, 0, 0, 0, 0, cut.taken,
                cut.drawn, left if cut.is_whole else 0, not cut.is_whole))
    market.base_rate, market.fee_minute = base_rate, market.minute
    market.fee_coll += fee
    if fee:
        market.tell(Fee(market.records, fee, 0))
    market.pay(account, drawn - fee, -redeemed)
    return redeemed, drawn, fee, base_rate


def claim(market: Market, account: int) -> Values:
    """`claim`: the surplus into the wallet."""
    coll = market.surpluses.get(account, 0)
    refuse(coll == 0, NoSurplus, account)
    market.admit()
    del market.surpluses[account]
    market.surplus -= coll
    market.pay(account, coll)
    return (coll,)
