"""A journal's market, and what the words `state`, `report`, `follow` and `gen` tell. `serve` is answered as `run` is,
in the order of its history."""
import json
from typing import Iterator, List

from ..journal import LIMITS, Command, DamagedFile, Disk
from .amounts import ONE
from .follower import Follower
from .pool import position
from .requests import SYSTEM, is_repeated, pools, reply_to, system
from .state import Market, Offset
from .troves import entire

GENERATED_ACCOUNTS = 50


def market_on(disk: Disk, keeps_events: bool = False) -> Market:
    """The market that stands on a file. Raises DamagedFile at a record that the rules refuse, or that comes again."""
    market = Market.begun_with(disk.checkpoint) if disk.checkpoint else Market(LIMITS[disk.version])
    market.events = [] if keeps_events else None
    for index, command in enumerate(disk.commands, 1):
        if is_repeated(market, command) or not reply_to(market, command).startswith("ok"):
            raise DamagedFile(disk.path, index, "the rules refuse it")
    return market


def state_text(market: Market) -> List[str]:
    """What `state` tells."""
    return [
        " ".join(map(str, system(market))), " ".join(map(str, pools(market))),
        f"pool {market.p} {market.scale} {market.epoch} {market.sum}",
        f"journal {market.generation} {market.records}",
    ]


def report_text(market: Market) -> str:
    """What `report` tells."""
    deposits, troves = [], []
    for account, deposit in sorted(market.deposits.items()):
        balance, gain = position(market, deposit)
        deposits.append({"account": account, "balance": balance, "gain": gain})
    for account, trove in sorted(market.troves.items()):
        coll, debt = entire(market, trove)
        troves.append({"account": account, "coll": coll, "debt": debt, "stake": trove.stake})
    told = {
        "deposits": deposits,
        "pool": {"epoch": market.epoch, "p": str(market.p), "scale": market.scale, "sum": str(market.sum)},
        "system": dict(zip(SYSTEM, system(market))),
        "troves": troves,
    }
    return json.dumps(told, separators=(",", ":"), sort_keys=True)


def follow_text(data: bytes) -> List[str]:
    """What `follow` tells of the bytes of a journal of the first generation. Raises `Halt` where they are damaged."""
    follower = Follower()
    follower.feed(data)
    return state_text(follower.market)


# ---- a generated load


def generated(seed: int, count: int) -> Iterator[Command]:
    """The calls of `gen`, numbered by 1 and not as they would be sent: whoever carries them out numbers them."""
    for account in range(1, GENERATED_ACCOUNTS + 1):
        yield Command(1, 0, "fund", (account,), (10**12,), ())
        yield Command(1, 0, "open", (account,), (10**11, 2 * 10**10, ONE), (None, None))
        yield Command(1, 0, "provide", (account,), (10**10,), ())
    state = seed

    def draw() -> int:
        nonlocal state
        state = (state * 6364136223846793005 + 1442695040888963407) % 2**64
        return state >> 33

    for _ in range(count):
        kind, a, v = draw() % 16, 1 + draw() % GENERATED_ACCOUNTS, draw()
        verb, accounts, amounts = (
            ("price", (), (300_000_000 + v % 900_000_000,)),
            ("advance", (), (1 + v % 600,)),
            ("open", (a,), (10**11, 2_000_000_000 + v, ONE)),
            ("adjust", (a,), (0, 0, v, 0, ONE)),
            ("adjust", (a,), (0, 0, 0, v, 0)),
            ("adjust", (a,), (v, 0, 0, 0, 0)),
            ("adjust", (a,), (0, v, 0, 0, 0)),
            ("close", (a,), ()),
            ("provide", (a,), (1 + v,)),
            ("withdraw", (a,), (v,)),
            ("gain_to_trove", (a,), ()),
            ("liquidate", (1000, a), ()),
            ("liquidate_lowest", (1000,), (1 + v % 64,)),
            ("redeem", (a,), (1 + v, ONE)),
            ("claim", (a,), ()),
            ("send", (a, 1 + v % GENERATED_ACCOUNTS), (1 + v,)),
        )[kind]
        yield Command(1, 0, verb, accounts, amounts, ())


def gen_text(seed: int, count: int) -> str:
    """The line that `gen` writes."""
    market, accepted, refused = Market(), 0, 0
    market.events = []
    for command in generated(seed, count):
        if reply_to(market, command._replace(number=accepted + 1)).startswith("ok"):
            accepted += 1
        else:
            refused += 1
    offsets = sum(isinstance(event, Offset) for event in market.events)
    return (
        f"accepted {accepted} refused {refused} offsets {offsets} epochs {market.epoch} scale {market.scale} "
        f"p {market.p} total {market.pool_lusd} coll {market.pool_coll} supply {market.total_debt}"
    )
