"""The base rate and fees."""
from ..refusals import FeeBound, FeeOver
from .amounts import DECAY, FLOOR_RATE, MAX_BORROW_RATE, ONE, part_of, refuse
from .state import Market


def power_of(base: int, exponent: int) -> int:
    """A rate to a power, by squaring from the lowest binary digit on; each product is rounded to the nearest."""
    result = ONE
    while exponent and result:
        if exponent & 1:
            result = (result * base + ONE // 2) // ONE
        base = (base * base + ONE // 2) // ONE
        exponent >>= 1
    return result


def decayed(base_rate: int, minutes: int) -> int:
    """What so many minutes leave of a base rate."""
    return part_of(base_rate, power_of(DECAY, minutes)) if base_rate else 0


def risen(base_rate: int, redeemed: int, supply: int) -> int:
    """The base rate behind a redemption of a part of the supply."""
    return min(ONE, base_rate + redeemed * ONE // (2 * supply))


def borrow_rate(base_rate: int) -> int:
    """The rate of a borrowing's fee."""
    return min(base_rate + FLOOR_RATE, MAX_BORROW_RATE)


def redeem_rate(base_rate: int) -> int:
    """The rate of a redemption's fee, by the base rate behind it."""
    return min(base_rate + FLOOR_RATE, ONE)


def base_rate_now(market: Market) -> int:
    """What is left of the base rate."""
    return decayed(market.base_rate, market.minute - market.fee_minute)


def fee_now(market: Market, lusd: int) -> int:
    """The fee of borrowing so much; Recovery Mode waives it."""
    return 0 if market.is_recovery() else part_of(lusd, borrow_rate(base_rate_now(market)))


def check_bound(bound: int, is_waived: bool = False) -> None:
    """Raises FeeBound where the greatest fee that is accepted lies outside its range."""
    least = 0 if is_waived else FLOOR_RATE
    refuse(not least <= bound <= ONE, FeeBound, bound, least)


def check_fee(fee: int, bound: int, amount: int) -> None:
    """Raises FeeOver where the fee is a greater part of the amount than the bound."""
    refuse(fee * ONE > bound * amount, FeeOver, fee * ONE, bound * amount)
