"""Amounts: what they are counted in, their limits, and how ratios are compared.

Debt and LUSD are in millionths, collateral is in gwei, a price in millionths of a LUSD for one ether, time in minutes.
Rates, products and sums are over `ONE`.
"""
from typing import Type

from ..journal import LIMITS
from ..refusals import Refusal

ONE = 10**18
ETHER, STEP = 10**9, 10**9  # gwei for one ether; one step of the scale
LIMIT_OF_VERSION_1, LIMIT = LIMITS[1], LIMITS[2]
PRICE_LEAST, PRICE_MOST, PRICE_OPENING = 10**8, 10**12, 10**9
LEAST_RATIO, CRITICAL_RATIO = 110, 150
RESERVE, LEAST_NET_DEBT = 200_000_000, 1_800_000_000
FLOOR_RATE, MAX_BORROW_RATE = 5 * 10**15, 5 * 10**16
DECAY, BOOTSTRAP, MINUTE_MOST = 999037758833783000, 20_160, 10**12
PRODUCT_LEAST, SUM_MOST, SCALES_READ = 10**9, 10**37, 4
ACCOUNTS, LOWEST_MOST = 2**20, 64
RECORDS_MOST, GENERATIONS_MOST, NUMBER_MOST = 1_000_000, 2**36, 2**64 - 1
GAS_PART, CAP_WORTH = 200, 1_100_000_000


def rounded_up(amount: int, divisor: int) -> int:
    """A quotient, rounded up."""
    return -(-amount // divisor)


def part_of(amount: int, rate: int) -> int:
    """The part of an amount that a rate over `ONE` says, rounded down."""
    return amount * rate // ONE


def refuse(holds: object, refusal: Type[Refusal], *values: int) -> None:
    """Raises a refusal with its values where its condition holds."""
    if holds:
        raise refusal(*values)


def refuse_below(refusal: Type[Refusal], coll: int, debt: int, price: int, percent: int, *front: int) -> None:
    """Raises a refusal with both sides, perhaps behind an account, where a ratio is below so many percent."""
    worth, asked = coll * price * 100, percent * debt * ETHER
    refuse(worth < asked, refusal, *front, worth, asked)
