"""Borrowing: an opening, a change, a closing, and a gain that moves into the trove."""
from ..refusals import (
    AmountLimit, BothWays, LastTrove, NetDebtLow, NoChange, NoDeposit, NoGain, NoTrove, RatioFalls, RatioLow,
    RecoveryForbids, ShortCollateral, ShortTokens, SystemRatioLow, TroveExists,
)
from .amounts import CRITICAL_RATIO, LEAST_NET_DEBT, LEAST_RATIO, RESERVE, refuse, refuse_below
from .pool import own, position
from .rate import base_rate_now, check_bound, check_fee, fee_now
from .state import Fee, Market, Values, row_of
from .troves import entire, lift, place


def pay_fee(market: Market, fee: int, recovery: bool) -> None:
    """Notes a borrowing's base rate, but for Recovery Mode, and puts the fee into the fee pool."""
    if not recovery:
        market.base_rate, market.fee_minute = base_rate_now(market), market.minute
    market.fee_lusd += fee
    if fee:
        market.tell(Fee(market.records, 0, fee))


def open_trove(market: Market, account: int, coll: int, lusd: int, bound: int) -> Values:
    """`open`: a trove. Gives its debt and the fee in it."""
    refuse(account in market.troves, TroveExists, account)
    recovery, price, total = market.is_recovery(), market.price, market.total_debt
    check_bound(bound, recovery)
    fee = fee_now(market, lusd)
    check_fee(fee, bound, lusd)
    refuse(lusd + fee < LEAST_NET_DEBT, NetDebtLow, lusd + fee, LEAST_NET_DEBT)
    debt = lusd + fee + RESERVE
    refuse(total + debt > market.limit, AmountLimit, total + debt, market.limit)
    has = market.wallet(account)[0]
    refuse(has < coll, ShortCollateral, coll, has)
    refuse_below(RatioLow, coll, debt, price, CRITICAL_RATIO if recovery else LEAST_RATIO)
    if not recovery:
        refuse_below(SystemRatioLow, market.total_coll + coll, total + debt, price, CRITICAL_RATIO)
    market.admit()
    pay_fee(market, fee, recovery)
    market.pay(account, -coll, lusd)
    market.reserve += RESERVE
    place(market, account, coll, debt)
    return debt, fee


def adjust(market: Market, account: int, coll_in: int, coll_out: int, borrowed: int, repaid: int, bound: int) -> Values:
    """`adjust`: the trove changes. Gives its collateral and debt, and the fee."""
    old_coll, old_debt = entire(market, row_of(market.troves, account, NoTrove))
    recovery, price, total_coll, total = market.is_recovery(), market.price, market.total_coll, market.total_debt
    if borrowed:
        check_bound(bound, recovery)
    refuse(coll_in and coll_out, BothWays, coll_in, coll_out)
    refuse(borrowed and repaid, BothWays, borrowed, repaid)
    refuse(not (coll_in or coll_out or borrowed or repaid), NoChange)
    if coll_out:
        refuse_below(RecoveryForbids, total_coll, total, price, CRITICAL_RATIO)
    fee = fee_now(market, borrowed) if borrowed else 0
    check_fee(fee, bound, borrowed)
    has_coll, has_lusd = market.wallet(account)
    refuse(coll_in > has_coll, ShortCollateral, coll_in, has_coll)
    refuse(coll_out > old_coll, ShortCollateral, coll_out, old_coll)
    refuse(repaid > has_lusd, ShortTokens, repaid, has_lusd)
    coll, debt = old_coll + coll_in - coll_out, old_debt + borrowed + fee - repaid
    net = max(0, debt - RESERVE)
    refuse(repaid and net < LEAST_NET_DEBT, NetDebtLow, net, LEAST_NET_DEBT)
    new_total = total + debt - old_debt
    refuse(borrowed and new_total > market.limit, AmountLimit, new_total, market.limit)
    if borrowed or not recovery:
        refuse_below(RatioLow, coll, debt, price, CRITICAL_RATIO if recovery else LEAST_RATIO)
    if borrowed and recovery:
        refuse(coll * old_debt < old_coll * debt, RatioFalls, coll * old_debt, old_coll * debt)
    if not recovery:
        refuse_below(SystemRatioLow, total_coll + coll - old_coll, new_total, price, CRITICAL_RATIO)
    market.admit()
    if borrowed:
        pay_fee(market, fee, recovery)
    lift(market, account)
    place(market, account, coll, debt)
    market.pay(account, coll_out - coll_in, borrowed - repaid)
    return coll, debt, fee


def close(market: Market, account: int) -> Values:
    """`close`: the trove is repaid. Gives what was repaid, and the collateral that came back."""
    coll, debt = entire(market, row_of(market.troves, account, NoTrove))
    price, total_coll, total = market.price, market.total_coll, market.total_debt
    refuse(len(market.troves) == 1, LastTrove, 1)
    refuse_below(RecoveryForbids, total_coll, total, price, CRITICAL_RATIO)
    repaid, has = debt - RESERVE, market.wallet(account)[1]
    refuse(repaid > has, ShortTokens, repaid, has)
    refuse_below(SystemRatioLow, total_coll - coll, total - debt, price, CRITICAL_RATIO)
    market.admit()
    lift(market, account)
    market.reserve -= RESERVE
    market.pay(account, coll, -repaid)
    return repaid, coll


def gain_to_trove(market: Market, account: int) -> Values:
    """`gain_to_trove`: a depositor's gain into its own trove. Gives the gain, and the trove's collateral then."""
    deposit = row_of(market.deposits, account, NoDeposit)
    coll, debt = entire(market, row_of(market.troves, account, NoTrove))
    balance, gain = position(market, deposit)
    refuse(gain == 0, NoGain, account)
    if not market.is_recovery():
        refuse_below(RatioLow, coll + gain, debt, market.price, LEAST_RATIO)
    market.admit()
    own(market, account, gain=gain, balance=balance)
    lift(market, account)
    place(market, account, coll + gain, debt)
    return gain, coll + gain
