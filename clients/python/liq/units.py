"""Decimal text to the whole numbers of liq, and back.

Ether is counted in gwei (10^9 for one ether), LUSD and prices in millionths (10^6 for one LUSD), rates and fee bounds
over 10^18. Nothing is rounded: a float, or a text with more places than there are, is an error.

A whole number may be an int of Python, whatever else says of itself that it is one (`__index__`, as numpy's integers
do), or a `Decimal` with nothing behind its point. Each is taken exactly, and goes on as an int.
"""
import operator
import re
from decimal import Decimal
from typing import Iterable, List, SupportsIndex, Union

from .errors import BadType, BadValue

GWEI = 10**9
MILLIONTHS = 10**6
WHOLE = 10**18
ANY_FEE = WHOLE
DIGITS_MOST = 40  # of a Decimal: all amounts have less, and a greater one would take memory before it is out of range

Whole = Union[SupportsIndex, Decimal]
Amount = Union[str, Whole]


def ether(amount: Amount) -> int:
    """Ether in gwei: `ether("1.5")` is 1500000000. A whole number of ether may be an int; a `Decimal` is as its
    text."""
    return _units(amount, 9)


def lusd(amount: Amount) -> int:
    """LUSD, or a price, in millionths: `lusd("4000")` is 4000000000. A whole number of LUSD may be an int; a `Decimal`
    is as its text."""
    return _units(amount, 6)


def rate(part: Amount) -> int:
    """A rate, or a fee bound, over 10^18: `rate("0.005")` is half a percent."""
    return _units(part, 18)


def show_ether(gwei: Whole) -> str:
    """Gwei as decimal text in ether: `show_ether(1500000000)` is `1.5`."""
    return _text(whole(gwei), 9)


def show_lusd(millionths: Whole) -> str:
    """Millionths as decimal text in LUSD: `show_lusd(4000000000)` is `4000`."""
    return _text(whole(millionths), 6)


def counted(count: int, what: str) -> str:
    """A count and what is counted: `counted(2, "trove")` is `2 troves`."""
    return f"{count} {what}" + ("" if count == 1 else "s")


def whole(number: Whole) -> int:
    """A whole number as an int. What is none is a `TypeError`, and so is a bool; a `Decimal` with a part behind its
    point is a `ValueError`."""
    if type(number) is int:
        return number
    if isinstance(number, Decimal):
        if not number.is_finite() or number.adjusted() >= DIGITS_MOST or number != number.to_integral_value():
            raise BadValue(f"{number} is no whole number of units: ether(), lusd() and rate() make one of a Decimal")
        return int(number)
    if isinstance(number, float):
        raise BadType(
            f"{number!r} is a float, which rounds: write it as text, ether(\"1.5\") or lusd(\"4000\"), or as a "
            "Decimal; round() and int() make a whole number of one that may be rounded")
    if isinstance(number, str):
        raise BadType(f"{number!r} is text: ether(), lusd() and rate() make a whole number of it")
    if isinstance(number, bool) or type(number).__name__ in ("bool_", "bool") or not hasattr(number, "__index__"):
        raise BadType(f"{number!r} is no whole number: give an int, or a Decimal without a part behind its point")
    return operator.index(number)


def within(number: Whole, limit: int) -> int:
    """A whole number from 0 on that is below the limit, as an int. What is out of it is a `ValueError`; see `whole`."""
    found = whole(number)
    if not 0 <= found < limit:
        raise BadValue(f"{found} is not from 0 to {limit - 1}")
    return found


def all_within(numbers: Iterable[Whole], limit: int) -> List[int]:
    """Whole numbers from 0 on that are below the limit, as ints: see `within`."""
    return [
        number if type(number) is int and 0 <= number < limit else within(number, limit) for number in numbers
    ]


def _units(amount: Amount, places: int) -> int:
    if isinstance(amount, str):
        text = amount
    elif isinstance(amount, Decimal):
        if not amount.is_finite() or amount.adjusted() >= DIGITS_MOST or amount.adjusted() < -DIGITS_MOST and amount:
            raise BadValue(f"{amount} is no amount")
        text = f"{amount:f}"
        text = text.rstrip("0").rstrip(".") if "." in text else text
    else:
        text = str(whole(amount))
    found = re.fullmatch(r"([0-9]+)(?:\.([0-9]+))?", text)
    if not found:
        raise BadValue(f"{amount!r} is no decimal number")
    ahead, behind = found[1], found[2] or ""
    if len(behind) > places:
        raise BadValue(f"{amount!r} has more than {places} places behind the point")
    return int(ahead + behind.ljust(places, "0"))


def _text(units: int, places: int) -> str:
    ahead, behind = divmod(abs(units), 10**places)
    shown = f"{ahead}.{behind:0{places}}".rstrip("0").rstrip(".")
    return "-" + shown if units < 0 else shown
