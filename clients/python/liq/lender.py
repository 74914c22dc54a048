"""What a lender asks: ratios, fees as they are at this minute, troves by their ratios, and what became of whom.

    system = market.system()
    ratio(market.trove(1), system.price), ratio(system, system.price)       # percent, as Decimal
    borrow_fee(system, lusd(4000)), redeem_fee(system, lusd(4000))
    by_ratio(market.troves(range(100)), system.price)                       # the lowest first

    watch = Watch(market)
    watch.client(1).liquidate_lowest(9, 64)
    frame(watch.events())                                                   # who was liquidated, and what took it over

Fees and events come of the rules in `liq.model`. All of it is for a market in memory and for a run alike.
"""
from decimal import Decimal
from pathlib import Path
from typing import Any, Iterable, Iterator, List, NamedTuple, Optional, Protocol, Sequence, Tuple, Type, Union

from .backup import backup
from .batch import COMMANDS, Given, is_array
from .client import AMOUNTS, Calls, Row
from .errors import BadType, BadValue, LiqError
from .grammar import Query
from .journal import VERBS, Command, Journal, read_checkpoint, read_command
from .library import ITEM_BYTES
from .memory import Market
from .model import Market as Model
from .model import carry_out, market_on, read_request
from .model.amounts import ETHER, ONE, RECORDS_MOST, part_of
from .model.rate import borrow_rate, decayed, redeem_rate, risen
from .model.requests import next_number, rotate
from .model.state import Fate
from .queries import Queries
from .refusals import Refusal
from .replies import System, Trove
from .scratch import scratch
from .service import Service
from .units import Whole, whole, within
from .words import ReportedTrove

PLACES, PLACES_MOST = 6, 40  # of a ratio in percent, behind the point


class Backed(Protocol):
    """Collateral in gwei and debt in millionths: a trove of any kind, or `System` for all troves."""

    @property
    def coll(self) -> int:
        """Collateral."""

    @property
    def debt(self) -> int:
        """Debt."""


# ---- ratios


def ratio(row: Backed, price: Whole, places: int = PLACES) -> Decimal:
    """Collateral at a price over debt, in percent, rounded down to so many places behind the point; Infinity where
    there is no debt. So it is below a bound of no more places exactly where the ratio is."""
    price, places = within(price, AMOUNTS), within(places, PLACES_MOST + 1)
    if row.debt == 0:
        return Decimal("Infinity")
    units = row.coll * price * 100 * 10**places // (row.debt * ETHER)
    return Decimal(f"{units}E-{places}")


class Rated(NamedTuple):
    """A trove and its ratio in percent."""

    account: int
    coll: int
    debt: int
    stake: int
    ratio: Decimal


def by_ratio(
    troves: Iterable[Union[Trove, ReportedTrove, None]], price: Whole, places: int = PLACES
) -> List[Rated]:
    """Troves by their ratios at a price, the lowest first, and of equal ones the lowest account; None is left out. All
    troves of a folder are those of `liq.words.report`.

    The list that liquidations and redemptions go along is by debt per unit of stake as of each owner's last operation,
    and by rounding it may differ a little from this order: see `Market.trove_accounts`."""
    found = [trove for trove in troves if trove is not None]
    # Both numbers are below 2^64, so different ratios lie 2^-128 apart at least: this tells them all apart.
    found.sort(key=lambda trove: ((trove.coll << 128) // trove.debt, trove.account))
    return [Rated(row.account, row.coll, row.debt, row.stake, ratio(row, price, places)) for row in found]


# ---- fees


class Rates(NamedTuple):
    """The rates of this minute over 10^18: what is left of the base rate, what a borrowing pays, and what a redemption
    pays at least, to which half the part of all LUSD is added that it redeems."""

    base: int
    borrow: int
    redeem: int


def rates(system: System) -> Rates:
    """The rates of this minute. In Recovery Mode a borrowing pays none."""
    base = decayed(system.base_rate, system.minute - system.fee_minute)
    return Rates(base, 0 if system.recovery else borrow_rate(base), redeem_rate(base))


def borrow_fee(system: System, lusd: Whole) -> int:
    """The fee of borrowing so much LUSD at this minute, in millionths, as `open` and `adjust` would reply it."""
    return part_of(within(lusd, AMOUNTS), rates(system).borrow)


def redeem_fee(system: System, lusd: Whole) -> int:
    """The fee of redeeming so much LUSD at this minute, in gwei of the ether that it draws, where it is all redeemed.

    The ether is rounded down at each trove that it comes from: by that the fee of `redeem` may be some gwei less than
    this, and never more. What is redeemed only in part pays less; `Market.client(..).preview.redeem(..)` tells."""
    lusd = within(lusd, AMOUNTS)
    if system.debt == 0:
        raise BadValue("there is no debt, so nothing can be redeemed")
    base = risen(rates(system).base, lusd, system.debt)
    return part_of(lusd * ETHER // system.price, redeem_rate(base))


def percent(rate: Whole) -> Decimal:
    """A rate over 10^18 in percent, exactly."""
    ahead, behind = divmod(within(rate, AMOUNTS), ONE // 100)
    text = f"{ahead}.{behind:016}".rstrip("0").rstrip(".")
    return Decimal(text)


# ---- what became of whom


class Event(NamedTuple):
    """What an accepted command did to a trove, or with it; the `record` is the how-manyth of its generation.

    `event` is one of these, `by` the account that liquidates or redeems, `owner` the one whose trove it is or was:

    - "liquidated": `coll` and `debt` are all that the trove had. Of the ether `gas` went to the liquidator, and the
      `surplus` is left for the owner to claim; the rest, and the debt, is in one or both of the next two.
    - "offset": what the Stability Pool took over of it.
    - "spread": what the other troves took over of it.
    - "redeemed": LUSD was burned, which is `debt`, for ether of the trove, which stays with the rest.
    - "closed": the same, of all its debt but the reserve: the trove is gone, and the owner may claim the `surplus`.
    """

    record: int
    minute: int
    price: int
    event: str
    by: int
    owner: int
    coll: int
    debt: int
    gas: int
    surplus: int


Request = Union[str, Command]


class Unwatched(LiqError):
    """A reply is another than the rules give behind the commands that were watched: there were commands that did not
    come through the watch, and its events would be wrong."""


def events(market: Model, commands: Union[bytes, Iterable[Request], Any]) -> Iterator[Event]:
    """What commands do to troves, from a market on that is a model (`model_of`): it carries them out, one by one as the
    events are taken. A command is a request line or one of `liq.journal`; or they are a batch that was numbered, as
    rows of numpy or as bytes. Refused ones do nothing; queries are passed over."""
    market.fates = []
    for given in _commands(commands):
        try:
            carry_out(market, given)
        except Refusal:
            continue
        yield from _told(market)


def model_of(market: Queries) -> Model:
    """The market as a model, which goes its own way from then on. Of a `Service` the files are copied and read: that
    takes some seconds for a long journal."""
    if isinstance(market, Market):
        saved = market.save()
        checkpoint = read_checkpoint(Path("save"), saved[16:-32], 0)
        assert checkpoint is not None
        made = Model.begun_with(checkpoint)
        made.records = int.from_bytes(saved[8:16], "big")
        return made
    if not isinstance(market, Service):
        raise BadType(f"{market!r} is no market: a Market or a Service")
    market.system()  # the run has opened its files where it has replied
    with scratch(market.folder, "liq-model") as room:
        backup(market.folder, room)
        return market_on(Journal(room).current)


class Watch:
    """What becomes of troves by the commands of its clients, of a market in memory or a run, from now on.

    Others may look at the market meanwhile, but all its commands have to come through here."""

    def __init__(self, market: Union[Market, Service]) -> None:
        self.market = market
        self._model = model_of(market)
        self._model.fates = []
        self._sent: List[Tuple[Command, Tuple[int, ...]]] = []
        self._found: List[Event] = []

    def client(self, client: Whole) -> "WatchedClient":
        """A client whose commands are watched."""
        return WatchedClient(self, client)

    def events(self) -> List[Event]:
        """All events since the watch began. Raises `Unwatched`."""
        sent, self._sent = self._sent, []
        for command, told in sent:
            if self._model.records >= RECORDS_MOST and command.verb != "rotate":
                rotate(self._model)
            self._model.fates = []
            try:
                number = next_number(self._model, command.client)
                values: Optional[Sequence[int]] = carry_out(self._model, command._replace(number=number))
            except Refusal:
                values = None
            if values is None or tuple(values) != told:
                raise Unwatched(f"{command.call} was replied {told}; the commands that were watched give {values}")
            self._found += _told(self._model)
        return list(self._found)

    def note(self, command: Command, told: Tuple[int, ...]) -> None:
        """A command that was accepted."""
        self._sent.append((command, told))


class WatchedClient(Calls):
    """A client as `market.client` gives it, whose accepted commands are noted."""

    def __init__(self, watch: Watch, client: Whole) -> None:
        self._watch, self._client = watch, watch.market.client(client)
        self.client = self._client.client

    def _send(
        self, row: Type[Row], verb: str, accounts: Sequence[Whole], amounts: Sequence[Whole],
        hints: Optional[Sequence[Optional[Whole]]] = None,
    ) -> Row:
        told = self._client._send(row, verb, accounts, amounts, hints)
        named, given = tuple(map(whole, accounts)), tuple(map(whole, amounts))
        no_hints = (None,) * VERBS[verb].count("h")
        self._watch.note(Command(self.client, 0, verb, named, given, no_hints), tuple(told))
        return told


def _commands(commands: Union[bytes, Iterable[Request], Any]) -> Iterator[Command]:
    """The commands among what is given."""
    if is_array(commands) or isinstance(commands, (bytes, bytearray)):
        items = Given(commands, COMMANDS).items
        data = bytes(memoryview(items).cast("B")) if len(items) else b""
        for at in range(0, len(data), ITEM_BYTES):
            found = read_command(data[at : at + ITEM_BYTES])
            if found is None:
                raise BadValue(f"the 96 bytes from {at} on are no command, or a rotation")
            yield found
        return
    for given in commands:
        request = read_request(given) if isinstance(given, str) else given
        if not isinstance(request, Query):
            yield request


def _told(market: Model) -> Iterator[Event]:
    """The events of the fates that a model has kept, which are gone with it."""
    fates, market.fates = market.fates or [], []
    for fate in fates:
        yield from _events_of(fate, market.price)


def _events_of(fate: Fate, price: int) -> Iterator[Event]:
    """The events that one fate is."""
    front = fate.record, fate.minute, price
    whose = fate.by, fate.account
    if fate.redeemed:
        event = "redeemed" if fate.stays else "closed"
        yield Event(*front, event, *whose, fate.drawn, fate.redeemed, 0, fate.surplus)
        return
    yield Event(*front, "liquidated", *whose, fate.coll, fate.debt, fate.gas, fate.surplus)
    if fate.pool_debt:
        yield Event(*front, "offset", *whose, fate.pool_coll, fate.pool_debt, 0, 0)
    if fate.spread_debt:
        yield Event(*front, "spread", *whose, fate.spread_coll, fate.spread_debt, 0, 0)
