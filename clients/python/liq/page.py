"""A market on one page of HTML, without scripts and without parts from elsewhere; or the same numbers as JSON.

usage: python3 -m liq.page [--json] [--seconds N] FOLDER > page.html

It works on copies, so liq may run meanwhile. What it shows is what `liq report` tells, beside the pools; the order of
the list of troves is read from a checkpoint, which the copy is made to write. What is liquidated at other prices is
tried out on further copies (`risk`).

The folder may be anybody's. Each file may have 2^28 bytes, and the whole may take N seconds, an hour unless another
number is said: what passes that is refused (`TooMuch`). The copies are gone behind it, also where a signal ends it.

It ends with 0, with 1 where a folder is refused, and with 2 where its words are not understood.
"""
import json
import sys
from fractions import Fraction
from typing import Any, Dict, List, NamedTuple, Optional, Sequence, Tuple

from .backup import backup
from .chart import Panel, chart
from .console import add_seconds, as_process, ended, parser_of, refused
from .ends import Folder, Usage
from .errors import LiqError
from .journal import SIDES
from .progress import Bar
from .recheck import market, unused_client
from .replies import Pools, System
from .risk import Tried, try_prices
from .scratch import bounded, scratch
from .service import Service
from .template import Form, Markup, Templates, head_of
from .units import GWEI, WHOLE, show_ether, show_lusd
from .words import Report, ReportedTrove, report

PAGE = 1  # the form of the page's JSON
SECONDS = 3600
ROWS_MOST = 1000
PRICE_LEAST, PRICE_MOST = 100 * 10**6, 10**6 * 10**6
LEAST_RATIO, CRITICAL_RATIO = 110, 150
LABEL = "Debt and number of the troves that liquidate_lowest takes, over the price"
WIDE, NARROW = 960, 360  # of a picture, for a screen that has room and for one that has little
EXAMPLES = """
python3 -m liq.page /var/lib/liq > page.html
python3 -m liq.page --json /var/lib/liq > page.json
"""


class Market(NamedTuple):
    """What the page shows: the report, the pools, the accounts of all troves in the list's order, and what
    `liquidate_lowest` does at some prices, that of now among them; at none where no trove can be liquidated."""

    report: Report
    pools: Pools
    order: Sequence[int]
    tried: Sequence[Tried] = ()

    @property
    def prices(self) -> Dict[int, Optional[int]]:
        """The highest price at which each trove may be liquidated by itself."""
        system, pool_lusd = self.report.system, self.pools.pool_lusd
        return {trove.account: liquidation_price(trove, system, pool_lusd) for trove in self.report.troves}

    @property
    def taken_now(self) -> int:
        """How many troves `liquidate_lowest` takes at the price of now."""
        return sum(each.troves for each in self.tried if each.price == self.report.system.price)


def read_market(folder: Folder, program: Optional[Folder] = None, bar: Optional[Bar] = None) -> Market:
    """A market, read from copies of a folder's files."""
    with scratch(folder, "liq-page") as room:
        backup(folder, room)
        reported = report(room, program)
        with Service(room, program) as service:
            pools = service.pools()
        found = market(room, program)
        shown = Market(reported, pools, found.list_of_troves)
        if reported.system.troves < 2:
            return shown
        debts = {trove.account: trove.debt for trove in reported.troves}
        file = room / f"{SIDES[(found.generation + 1) % 2]}.liq"
        low, high = range_of_prices(shown)
        return shown._replace(tried=try_prices(
            file, [debts[account] for account in reversed(shown.order)], unused_client(found.clients), low, high,
            reported.system.price, program, bar))


# ---- who can be liquidated at which price


def ratio_of(coll: int, debt: int, price: int) -> int:
    """The ratio of collateral to debt in hundredths of a percent, cut off."""
    return 10_000 * coll * price // (debt * GWEI)


def highest_price_below(ratio: int, coll: int, debt: int) -> int:
    """The highest price at which so much collateral is worth less than `ratio` percent of the debt."""
    return (ratio * debt * GWEI - 1) // (100 * coll)


def liquidation_price(trove: ReportedTrove, system: System, pool_lusd: int) -> Optional[int]:
    """The highest price at which a trove may be liquidated, all else as it is; None where it is the last one.

    In both modes that is below 110 percent. In Recovery Mode it is also where its ratio is below that of all troves
    and the Stability Pool has its whole debt; the troves are in that mode while all together are below 150 percent.
    """
    if system.troves <= 1:
        return None
    own = highest_price_below(LEAST_RATIO, trove.coll, trove.debt)
    if trove.coll * system.debt < system.coll * trove.debt and trove.debt <= pool_lusd:
        return max(own, highest_price_below(CRITICAL_RATIO, system.coll, system.debt))
    return own


def range_of_prices(shown: Market) -> Tuple[int, int]:
    """From where all troves but one are below 110 percent to where none can be liquidated, or to now. There are two
    troves at least."""
    now = shown.report.system.price
    own = sorted(highest_price_below(LEAST_RATIO, trove.coll, trove.debt) for trove in shown.report.troves)
    high = max(price for price in shown.prices.values() if price is not None)
    return max(PRICE_LEAST, min(own[1], now)), min(PRICE_MOST, max(high, now))


# ---- what is told


def told(shown: Market) -> Dict[str, Any]:
    """What is shown, as JSON has it: whole numbers, under names. The page shows these, some of them cut off."""
    system, pools, found = shown.report.system, shown.pools, shown.report
    by_ratio = _by_ratio(shown)
    return {
        "liq_page": PAGE,
        "units": "LUSD, debt and prices in millionths, ether and stakes in gwei, ratios and parts in hundredths of a "
        "percent and cut off, the base rate over 10^18",
        "records": system.records,
        "minute": system.minute,
        "price": system.price,
        "mode": "recovery" if system.recovery else "normal",
        "ratio": ratio_of(system.coll, system.debt, system.price) if system.debt else None,
        "troves": system.troves,
        "taken_now": shown.taken_now,
        "marked_now": sum(row["now"] for row in by_ratio),
        "base_rate": system.base_rate,
        "fee_minute": system.fee_minute,
        "stakes": system.stakes,
        "pool": {
            "lusd": pools.pool_lusd, "coll": pools.pool_coll, "p": found.p, "scale": found.scale,
            "epoch": found.epoch, "sum": found.sum,
        },
        "tried": [row._asdict() for row in shown.tried],
        "by_ratio": by_ratio,
        "by_list": _by_list(shown),
        "deposits": _deposits(shown),
        "homes": _homes(shown),
    }


def _by_ratio(shown: Market) -> List[Dict[str, Any]]:
    """All troves, the lowest ratio first. `now` is whether one can be liquidated by itself at the price of now."""
    prices, price = shown.prices, shown.report.system.price
    rows = []
    for trove in sorted(shown.report.troves, key=lambda trove: Fraction(trove.coll, trove.debt)):
        at_most = prices[trove.account]
        rows.append({
            "account": trove.account, "coll": trove.coll, "debt": trove.debt,
            "ratio": ratio_of(trove.coll, trove.debt, price), "at_most": at_most,
            "now": at_most is not None and at_most >= price,
        })
    return rows


def _by_list(shown: Market) -> List[Dict[str, Any]]:
    """All troves from the end of the list."""
    found, price = {trove.account: trove for trove in shown.report.troves}, shown.report.system.price
    rows = []
    for place, account in enumerate(reversed(shown.order), 1):
        trove = found[account]
        rows.append({
            "place": place, "account": account, "coll": trove.coll, "debt": trove.debt, "stake": trove.stake,
            "ratio": ratio_of(trove.coll, trove.debt, price),
        })
    return rows


def _deposits(shown: Market) -> List[Dict[str, Any]]:
    """All deposits, the greatest first. `part` is that of the whole pool."""
    whole = shown.pools.pool_lusd
    return [
        {
            "account": row.account, "balance": row.balance, "part": 10_000 * row.balance // whole if whole else None,
            "gain": row.gain,
        }
        for row in sorted(shown.report.deposits, key=lambda deposit: (-deposit.balance, deposit.account))]


def _homes(shown: Market) -> List[Dict[str, Any]]:
    """Where all ether and LUSD of the market is."""
    system, pools = shown.report.system, shown.pools
    rows: List[Tuple[str, Optional[int], Optional[int]]] = [
        ("all troves", system.coll, system.debt),
        ("of these recorded (active pool)", pools.active_coll, pools.active_debt),
        ("and spread since (default pool)", pools.default_coll, pools.default_debt),
        ("Stability Pool", pools.pool_coll, pools.pool_lusd),
        ("reserve for liquidators", None, pools.reserve),
        ("surplus to claim", pools.surplus, None),
        ("fees", pools.fee_coll, pools.fee_lusd),
    ]
    return [{"home": home, "coll": coll, "lusd": lusd} for home, coll, lusd in rows]


def as_json(shown: Market) -> str:
    """What the page shows, as JSON: all rows, exactly."""
    return json.dumps(told(shown), indent=1) + "\n"


# ---- the page


def page(shown: Market) -> str:
    """The page."""
    values = told(shown)
    cut = {name: _cut(values[name]) for name in ("tried", "by_ratio", "by_list", "deposits")}
    return Templates(FORMS).fill("market.html", {
        **values, **cut, **head_of("A liq market"), "contents": [
            {"name": name, "title": title} for name, title in CONTENTS if name != "risk" or shown.tried],
        "wide": _picture(shown.tried, WIDE), "narrow": _picture(shown.tried, NARROW),
    })


def _cut(rows: List[Dict[str, Any]]) -> Dict[str, Any]:
    """As many rows as a table shows, and how many are left out."""
    return {"rows": rows[:ROWS_MOST], "all": len(rows), "left_out": max(0, len(rows) - ROWS_MOST)}


def _picture(tried: Sequence[Tried], width: int) -> Markup:
    """What is liquidated at which price, drawn by the own hand: so the page is the same on each machine."""
    if not tried:
        return Markup()
    debts = [(each.price / 10**6, each.debt / 10**6) for each in tried]
    counts = [(each.price / 10**6, each.troves) for each in tried]
    return Markup(chart("", "price of one ether", [
        Panel("debt of the troves", {"liquidated": debts}, dots=True, unit="LUSD"),
        Panel("how many troves", {"liquidated": counts}, dots=True),
    ], width=width, across_unit="LUSD", label=LABEL))


def _grouped(text: str, places: int) -> str:
    """Decimal text with a comma at each thousand, cut off behind some places."""
    whole, _, part = text.partition(".")
    return f"{int(whole):,}.{part[:places]:0<{places}}"


def _ether(gwei: int) -> str:
    return _grouped(show_ether(gwei), 4)


def _lusd(millionths: int) -> str:
    return _grouped(show_lusd(millionths), 2)


def _price(price: int) -> str:
    return _lusd(price) if price >= PRICE_LEAST else "no price"


def _percent(hundredths: int) -> str:
    return f"{hundredths // 100:,}.{hundredths % 100:02} %"


def _rate(rate: int) -> str:
    """A rate in percent, cut off behind four places."""
    parts = rate * 10**6 // WHOLE
    return f"{parts // 10**4:,}.{parts % 10**4:04} %"


def _mode(mode: str) -> str:
    return f"{mode.capitalize()} Mode"


FORMS: Dict[str, Form] = {
    "count": "{:,}".format, "ether": _ether, "lusd": _lusd, "price": _price, "percent": _percent, "rate": _rate,
    "mode": _mode,
}
CONTENTS = [
    ("risk", "What is liquidated at which price"), ("ratios", "Troves by ratio"),
    ("list", "Troves in the list's order"), ("pool", "The Stability Pool"), ("totals", "Totals"),
]


# ---- the command


def main(words: List[str]) -> int:
    parser = parser_of("page", __doc__, EXAMPLES)
    parser.add_argument("folder", metavar="FOLDER", help="the market's folder, which may be anybody's; a run may go on")
    parser.add_argument("--json", action="store_true", help="the numbers of the page as one object, all rows, exactly")
    add_seconds(parser, SECONDS)
    asked = parser.parse_args(words)

    def tell() -> int:
        try:
            with bounded(asked.seconds), Bar() as bar:
                found = read_market(asked.folder, bar=bar)
                made = as_json(found) if asked.json else page(found)
        except Usage:
            return _refused("this program does not have the word report", asked.json)
        except (LiqError, OSError) as fault:
            return _refused(str(fault), asked.json)
        except MemoryError:
            return _refused("there is not enough memory", asked.json)
        sys.stdout.write(made)
        return 0

    return ended("page", tell, asked.json)


def _refused(why: str, is_json: bool) -> int:
    """Tells why there is no page: on standard error, since standard output is the page; or as an object."""
    if is_json:
        return refused("page", why, is_json)
    print(f"page: {why}", file=sys.stderr)
    return 1


def command() -> int:
    """The command, with the words of its process."""
    return as_process(main)


if __name__ == "__main__":
    sys.exit(command())
