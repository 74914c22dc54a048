"""A crash of the price among 300 owners, drawn as crash.svg in the folder where it is run.

The price falls by half in five days and comes back a little; each hour the troves that may be liquidated are. Half of
the owners put their LUSD into the Stability Pool. The same seed gives the same market and the same picture.

usage: python3 crash.py [SEED]
"""
import contextlib
import random
import sys
from pathlib import Path
from typing import Any, Dict, Iterator, List, Union

from liq import Market, NotBuilt, Refusal, Service, ether, lusd
from liq.chart import Panel, chart
from liq.simulate import service_in_memory

OWNERS, HOURS, LIQUIDATOR = 300, 240, 1000
Hours = List[Dict[str, Any]]


def main() -> None:
    chance = random.Random(int(sys.argv[1]) if len(sys.argv) > 1 else 3)
    with begun() as market:
        hours = simulate(market, chance)
    Path("crash.svg").write_text(draw(hours))
    print(f"{len(hours)} hours, {hours[-1]['troves']} of {OWNERS} troves are left: see crash.svg")


@contextlib.contextmanager
def begun() -> Iterator[Union[Market, Service]]:
    """A market in this process; or, where no library is built, that of a run. What they reply is the same."""
    try:
        market = Market()
    except NotBuilt:
        # A command waits for the disk twice; files in memory cost nothing, and are gone with the folder.
        with service_in_memory() as service:
            yield service
    else:
        with market:
            yield market


def simulate(market: Union[Market, Service], chance: random.Random) -> Hours:
    """A row of the market for each hour."""
    client = market.client(1)
    for owner in range(1, OWNERS + 1):
        client.fund(owner, ether(10))
        borrowed = lusd(chance.randint(2500, 6000))
        client.open(owner, ether(10), borrowed)
        if owner % 2 == 0:
            client.provide(owner, borrowed)
    price: float = 1000.0
    hours: Hours = []
    for hour in range(HOURS):
        price *= chance.gauss(0.9942 if hour < 120 else 1.001, 0.006)
        client.price(lusd(f"{price:.6f}"))
        client.advance(60)
        try:
            while client.liquidate_lowest(LIQUIDATOR, 64).count == 64:
                pass
        except Refusal:
            pass  # no trove may be liquidated
        system, pools = market.system(), market.pools()
        hours.append({
            "hour": hour,
            "price": price,
            "troves": system.troves,
            "debt": system.debt / 10**6,
            "pool": pools.pool_lusd / 10**6,
            "gained": pools.pool_coll / 10**9,
            "ratio": 100 * system.coll * system.price / (10**9 * system.debt),
        })
    return hours


def draw(hours: Hours) -> str:
    """The picture."""
    critical = [(0, 150), (HOURS, 150)]
    return chart("A crash of the price", "time", [
        Panel("price of one ether", ["price"], unit="LUSD"),
        Panel("debt and Stability Pool", {"debt of all troves": "debt", "Stability Pool": "pool"}, unit="LUSD"),
        Panel("what the Stability Pool holds", {"gained": "gained"}, unit="ether"),
        Panel("ratio", {"of all troves": "ratio", "Recovery Mode below": critical}, zero=False, unit="percent"),
    ], hours, "hour", across_unit="hours")


if __name__ == "__main__":
    main()
