"""Requests: the step of the rules, and the text of a reply. The grammar of lines is `liq.grammar`."""
from typing import Callable, Dict, Iterable, Iterator

from ..grammar import NoRequest, Query, Request, read_request
from ..journal import CHECKPOINT_BYTES_MOST, Command, KeptReply
from ..refusals import (
    AccountRange, AmountLimit, AmountZero, OutOfTurn, PriceRange, Refusal, ShortCollateral, ShortTokens,
)
from ..replies import Pools
from .amounts import ACCOUNTS, GENERATIONS_MOST, LIMIT, MINUTE_MOST, NUMBER_MOST, PRICE_LEAST, PRICE_MOST, refuse
from .borrowing import adjust, close, gain_to_trove, open_trove
from .disks import checkpoint_bytes
from .liquidation import liquidate, liquidate_lowest
from .pool import position, provide, withdraw
from .redemption import claim, redeem
from .state import Market, Values
from .troves import entire

SYSTEM = ("price", "minute", "base", "fee_minute", "mode", "troves", "stakes", "coll", "debt", "records")


# ---- the verbs of no other part


def set_price(market: Market, price: int) -> Values:
    """`price`: the price."""
    refuse(not PRICE_LEAST <= price <= PRICE_MOST, PriceRange, price)
    market.admit()
    market.price = price
    return ()


def advance(market: Market, minutes: int) -> Values:
    """`advance`: minutes pass. Gives the new minute."""
    refuse(minutes == 0, AmountZero)
    refuse(market.minute + minutes > MINUTE_MOST, AmountLimit, market.minute + minutes, MINUTE_MOST)
    market.admit()
    market.minute += minutes
    return (market.minute,)


def fund(market: Market, account: int, coll: int) -> Values:
    """`fund`: collateral into a wallet."""
    refuse(coll == 0, AmountZero)
    refuse(market.brought + coll > market.limit, AmountLimit, market.brought + coll, market.limit)
    market.admit()
    market.brought += coll
    market.pay(account, coll)
    return ()


def take(market: Market, account: int, coll: int) -> Values:
    """`take`: collateral out of a wallet."""
    refuse(coll == 0, AmountZero)
    has = market.wallet(account)[0]
    refuse(has < coll, ShortCollateral, coll, has)
    market.admit()
    market.brought -= coll
    market.pay(account, -coll)
    return ()


def send(market: Market, payer: int, payee: int, lusd: int) -> Values:
    """`send`: LUSD from one wallet to another."""
    refuse(lusd == 0, AmountZero)
    has = market.wallet(payer)[1]
    refuse(has < lusd, ShortTokens, lusd, has)
    market.admit()
    market.pay(payer, 0, -lusd)
    market.pay(payee, 0, lusd)
    return ()


def rotate(market: Market) -> Values:
    """`rotate`: the next generation, without records, under the limit of today. Gives its number."""
    following, length = market.generation + 1, len(checkpoint_bytes(market.checkpoint()))
    refuse(following > GENERATIONS_MOST, AmountLimit, following, GENERATIONS_MOST)
    refuse(length > CHECKPOINT_BYTES_MOST, AmountLimit, length, CHECKPOINT_BYTES_MOST)
    market.generation, market.records, market.limit = following, 0, LIMIT
    return (following,)


Verb = Callable[..., Values]
BY_VERB: Dict[str, Verb] = {
    "price": set_price, "advance": advance, "fund": fund, "take": take, "send": send, "open": open_trove,
    "adjust": adjust, "close": close, "provide": provide, "withdraw": withdraw, "gain_to_trove": gain_to_trove,
    "liquidate": liquidate, "liquidate_lowest": liquidate_lowest, "redeem": redeem, "claim": claim, "rotate": rotate,
}


# ---- the step


def check_accounts(accounts: Iterable[int]) -> None:
    """Raises AccountRange of the first account or client that is out of range."""
    for account in accounts:
        refuse(account >= ACCOUNTS, AccountRange, account)


def next_number(market: Market, client: int) -> int:
    """The number of a client's next new command; behind the greatest one there is none, and it stays."""
    return min(market.clients[client].last + 1, NUMBER_MOST) if client in market.clients else 1


def is_repeated(market: Market, command: Command) -> bool:
    """Whether a command has the number that was last accepted of its client."""
    return command.client in market.clients and market.clients[command.client].last == command.number


def carry_out(market: Market, command: Command) -> Values:
    """The values of a command's reply, which may be kept ones. Raises its refusal; then the market is as it was."""
    client, number, verb, accounts, amounts, _ = command
    check_accounts((client,))
    if is_repeated(market, command):
        return market.clients[client].values
    expected = next_number(market, client)
    refuse(number != expected, OutOfTurn, expected)
    check_accounts(accounts)
    values = BY_VERB[verb](market, *accounts, *amounts)
    market.clients[client] = KeptReply(number, verb, tuple(values))
    return values


def ask(market: Market, query: Query) -> Values:
    """The numbers of the reply to a query; none where it is `none`. Raises AccountRange."""
    name, accounts = query
    check_accounts(accounts)
    if name == "wallet":
        return market.wallet(accounts[0])
    if name == "trove":
        trove = market.troves.get(accounts[0])
        return (*entire(market, trove), trove.stake) if trove else ()
    if name == "deposit":
        deposit = market.deposits.get(accounts[0])
        return position(market, deposit) if deposit else ()
    if name == "next_number":
        return (next_number(market, accounts[0]),)
    return pools(market) if name == "pools" else system(market)


def pools(market: Market) -> Values:
    """The ten words of `? pools`."""
    return tuple([getattr(market, name) for name in Pools._fields])


def system(market: Market) -> Values:
    """The ten words of `? system`."""
    return (
        market.price, market.minute, market.base_rate, market.fee_minute, int(market.is_recovery()),
        len(market.troves), market.stakes, market.total_coll, market.total_debt, market.records,
    )


# ---- texts


def refusal_text(refusal: Refusal) -> str:
    """A refusal as a reply."""
    return " ".join(["no", str(refusal.code), *map(str, refusal.values)])


def reply_to(market: Market, request: Request) -> str:
    """The reply to a request, as text."""
    try:
        if isinstance(request, Query):
            return " ".join(map(str, ask(market, request))) or "none"
        values = carry_out(market, request)
    except Refusal as refusal:
        return refusal_text(refusal)
    return " ".join(["ok", *map(str, values)])


def answer(market: Market, line: str) -> str:
    """The reply to a line. Raises NoRequest where it is none."""
    return reply_to(market, read_request(line))


def run(market: Market, lines: Iterable[str]) -> Iterator[str]:
    """What `run` writes: the replies to lines, up to one that is no request."""
    for at, line in enumerate(lines, 1):
        try:
            yield answer(market, line)
        except NoRequest:
            yield f"bad line {at}"
            return
