"""What a page shows, of a market that the model has: so no program is wanted."""
import copy
from itertools import accumulate
from pathlib import Path

from liq import page
from liq.client import LOWEST_MOST
from liq.model import Market, answer
from liq.model.requests import pools
from liq.model.told import report_text
from liq.replies import Pools
from liq.risk import Tried, choose_prices
from liq.words import read_report

from . import modelled

ASKING = 77  # a client that is not in use


def shown_of(market: Market, most: int = 16) -> page.Market:
    """The market as the page shows it, with so many prices tried on copies of the model."""
    found = read_report(report_text(market))
    shown = page.Market(found, Pools(*pools(market)), [account for _, account in market.order])
    if found.system.troves < 2:
        return shown
    debts = {trove.account: trove.debt for trove in found.troves}
    owed = [0, *accumulate(debts[account] for account in reversed(shown.order))]

    def at(price: int) -> Tried:
        count = liquidated(market, price)
        return Tried(price, count, owed[count])

    low, high = page.range_of_prices(shown)
    return shown._replace(tried=choose_prices(at, low, high, found.system.price, most))


def liquidated(market: Market, price: int) -> int:
    """How many troves `liquidate_lowest` liquidates at a price, until it is refused."""
    tried, number, count = copy.deepcopy(market), 1, 0
    assert answer(tried, f"{ASKING} {number} price {price}") == "ok"
    while True:
        number += 1
        reply = answer(tried, f"{ASKING} {number} liquidate_lowest 0 {LOWEST_MOST}")
        if not reply.startswith("ok"):
            return count
        count += int(reply.split(" ")[1])


def a_market(folder: Path) -> page.Market:
    """Thirty owners amid a crash."""
    return shown_of(modelled.crash(folder).market)


def an_empty_market() -> page.Market:
    """A market in which nothing was done."""
    return shown_of(Market())
