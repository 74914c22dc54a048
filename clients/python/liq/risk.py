"""What `liquidate_lowest` does to a market at other prices: tried out, each on a copy of its own."""
import shutil
from itertools import accumulate
from pathlib import Path
from typing import Callable, Dict, List, NamedTuple, Optional, Sequence

from .client import LOWEST_MOST
from .ends import Folder
from .journal import copy_file
from .progress import Bar
from .refusals import Refusal
from .service import Service

TRIED_LEAST, TRIED_MOST, TROVES_OF_ALL = 16, 64, 10**6
PARTS = 1000  # of the range of prices: nearer to each other none are tried


class Tried(NamedTuple):
    """A price, and what `liquidate_lowest` liquidates where it is set: how many troves, and what debt these have as
    long as it is not."""

    price: int
    troves: int
    debt: int


def try_prices(
    file: Path, debts: Sequence[int], client: int, low: int, high: int, now: int, program: Optional[Folder] = None,
    bar: Optional[Bar] = None,
) -> List[Tried]:
    """What `liquidate_lowest` does at prices from `low` to `high` and at `now`, ascending, by their number as
    `choose_prices` has it.

    `file` holds the market as a checkpoint alone, `debts` are those of its troves from the end of the list, and
    `client` is one that is not in use. `bar` shows how many prices are done.
    """
    most = max(TRIED_LEAST, min(TRIED_MOST, TROVES_OF_ALL // len(debts)))
    owed = [0, *accumulate(debts)]
    room = file.parent / "tried"
    if bar:
        bar.begin("prices", most)

    def at(price: int) -> Tried:
        count = liquidated(file, room, client, price, program)
        if bar:
            bar.add()
        return Tried(price, count, owed[count])

    return choose_prices(at, low, high, now, most)


def liquidated(file: Path, room: Path, client: int, price: int, program: Optional[Folder] = None) -> int:
    """How many troves `liquidate_lowest` liquidates until it is refused, on a copy of a market at a price."""
    room.mkdir()
    try:
        copy_file(file, room / file.name)
        with Service(room, program) as service:
            sender, count = service.client(client), 0
            sender.price(price)
            try:
                while True:
                    count += sender.liquidate_lowest(0, LOWEST_MOST).count
            except Refusal:
                return count
    finally:
        shutil.rmtree(room)


def choose_prices(at: Callable[[int], Tried], low: int, high: int, now: int, most: int) -> List[Tried]:
    """Tries at most so many prices from `low` to `high`, and `now`: a quarter of them evenly, and then each in the
    middle of two neighbours, where most debt times most of the price lies between them."""
    steps = most // 4
    even = {low + (high - low) * step // steps for step in range(steps + 1)}
    found: Dict[int, Tried] = {price: at(price) for price in even | {now}}
    while len(found) < most:
        ordered = sorted(found.values())
        gaps = [
            ((above.price - below.price) * abs(above.debt - below.debt), below.price, above.price)
            for below, above in zip(ordered, ordered[1:]) if (above.price - below.price) * PARTS > high - low + PARTS
        ]
        widest, below, above = max(gaps, default=(0, 0, 0))
        if widest == 0:
            break
        middle = (below + above) // 2
        found[middle] = at(middle)
    return sorted(found.values())
