"""Many commands at once, as columns: numpy arrays of commands, queries and replies for the batches of `liq.Market`.

    calls = batch.fund(range(1000), ether(10))              # one for each account; a column or a number for each word
    replies = market.next(calls)                            # it numbers them, and writes the numbers into them
    calls = batch.open(range(1000), ether(10), debts)
    opened = batch.columns(market.next(calls), "open")      # opened.debt, opened.fee: those of the accepted ones
    asked = batch.queries("trove", market.trove_accounts())
    rows = batch.columns(market.query(asked), "trove", asked)       # rows.account, rows.coll, rows.debt, rows.stake
    batch.ratios(rows, price)

All columns are whole numbers without a sign, of 64 bits: 5 - 6 is 2^64 - 1, a product may pass 2^64, both without a
word, and what is 2^63 or more is below 0 once it is made a number with a sign. Take floats for sums of your own, or
numbers of Python.

A row of zeros is no command. It has no kind, its hints name account 0, and its fee bound is 0, which refuses; the calls
of this module give all that. Without numpy a batch takes bytes, whole commands of 96, and gives bytes.
"""
import ctypes
import functools
import struct
import sys
from typing import Any, Callable, Dict, List, NamedTuple, Optional, Sequence, Tuple, Union

from .client import ACCOUNTS, AMOUNTS
from .errors import BadType, BadValue, LiqError
from .journal import KINDS, NO_HINT, VERBS
from .library import ACCEPTED, BAD, ITEM_BYTES, NO_MEMORY, OK, QUERY_BYTES, TOLD, TOPICS
from .optional import need
from .packed import fault_in
from .replies import BY_QUERY, BY_VERB, Trove, told_fields
from .units import ANY_FEE, all_within, within

Column = Any  # a number for all, or a sequence of numbers, an array or any other
Columns = Any  # an array of rows of one of the types below
Why = Union[int, str, Exception]

# The types of rows: batch.COMMAND, batch.QUERY, batch.REPLY. What would be a gap is a field too: numpy copies no gaps.
TYPES: Dict[str, List[Tuple[Any, ...]]] = {
    "COMMAND": [
        ("kind", "u1"), ("gap", "u1", 3), ("client", ">u4"), ("number", ">u8"), ("account", ">u4"), ("other", ">u4"),
        ("amounts", ">u8", 5), ("before", ">u4"), ("after", ">u4"), ("rest", "u1", 24),
    ],
    "QUERY": [("topic", "=u4"), ("account", "=u4")],
    "REPLY": [("kind", "u1"), ("which", "u1"), ("count", "u1"), ("zero", "u1", 5), ("values", "<u8", 11)],
}


def need_numpy() -> Any:
    """The package numpy. Raises `NoPackage` where there is none."""
    # Not at the top: it takes a tenth of a second, and most callers do without.
    return need("numpy", "columns want numpy, which is not there; without it a batch takes bytes")


@functools.lru_cache(maxsize=None)
def type_of(name: str) -> Any:
    """A type of rows, as numpy has it."""
    return need_numpy().dtype(TYPES[name])


def __getattr__(name: str) -> Any:
    if name in TYPES:
        return type_of(name)
    raise AttributeError(f"module {__name__!r} has no attribute {name!r}")


class BatchStopped(LiqError):
    """The items before this index were answered; that one changed nothing, and those behind it were not come to.

    `why` is the place of the byte at which the field begins that fits no command or query; of `lines` the line that is
    no request; or an exception, as where there is no memory. `replies` has those of the items before it."""

    def __init__(self, index: int, why: Why, replies: Any = ()) -> None:
        super().__init__(index, why, replies)
        self.index, self.why, self.replies = index, why, replies

    def __str__(self) -> str:
        if isinstance(self.why, int):
            return f"item {self.index}: byte {self.why} begins a field that fits nothing"
        if isinstance(self.why, str):
            from .why import why  # only here: it is wanted once

            return f"line {self.index}: {self.why!r} is no request: {why(self.why)}"
        return f"item {self.index}: {self.why!r}"


# ---- commands, by their verbs. A word is a number for all of them, or one for each


def price(price: Column, client: Column = 1) -> Columns:
    """Sets prices."""
    return commands("price", client, (), (price,))


def advance(minutes: Column, client: Column = 1) -> Columns:
    """Lets time pass."""
    return commands("advance", client, (), (minutes,))


def fund(account: Column, coll: Column, client: Column = 1) -> Columns:
    """Brings ether from outside into wallets."""
    return commands("fund", client, (account,), (coll,))


def take(account: Column, coll: Column, client: Column = 1) -> Columns:
    """Takes ether out of wallets, and out of the protocol."""
    return commands("take", client, (account,), (coll,))


def send(sender: Column, receiver: Column, lusd: Column, client: Column = 1) -> Columns:
    """Moves LUSD between wallets."""
    return commands("send", client, (sender, receiver), (lusd,))


def open(account: Column, coll: Column, lusd: Column, bound: Column = ANY_FEE, client: Column = 1) -> Columns:
    """Opens troves."""
    return commands("open", client, (account,), (coll, lusd, bound))


def adjust(
    account: Column, coll_in: Column = 0, coll_out: Column = 0, borrow: Column = 0, repay: Column = 0,
    bound: Column = ANY_FEE, client: Column = 1,
) -> Columns:
    """Changes troves."""
    return commands("adjust", client, (account,), (coll_in, coll_out, borrow, repay, bound))


def close(account: Column, client: Column = 1) -> Columns:
    """Repays the whole debts of troves."""
    return commands("close", client, (account,), ())


def provide(account: Column, lusd: Column, client: Column = 1) -> Columns:
    """Puts LUSD into the Stability Pool."""
    return commands("provide", client, (account,), (lusd,))


def withdraw(account: Column, lusd: Column, client: Column = 1) -> Columns:
    """Takes LUSD out of the Stability Pool."""
    return commands("withdraw", client, (account,), (lusd,))


def gain_to_trove(account: Column, client: Column = 1) -> Columns:
    """Moves depositors' gains into their own troves."""
    return commands("gain_to_trove", client, (account,), ())


def liquidate(liquidator: Column, owner: Column, client: Column = 1) -> Columns:
    """Liquidates the troves of owners."""
    return commands("liquidate", client, (liquidator, owner), ())


def liquidate_lowest(liquidator: Column, count: Column, client: Column = 1) -> Columns:
    """Liquidates the lowest troves."""
    return commands("liquidate_lowest", client, (liquidator,), (count,))


def redeem(account: Column, lusd: Column, bound: Column = ANY_FEE, client: Column = 1) -> Columns:
    """Turns LUSD into ether."""
    return commands("redeem", client, (account,), (lusd, bound))


def claim(account: Column, client: Column = 1) -> Columns:
    """Pays out what redemptions and capped liquidations left."""
    return commands("claim", client, (account,), ())


def commands(verb: str, client: Column, accounts: Sequence[Column], amounts: Sequence[Column]) -> Columns:
    """Commands of one verb, with number 0 and without hints, as many as the longest column says. `concatenate` of numpy
    puts several together, in any order."""
    numpy = need_numpy()
    whose = numbers(client, ACCOUNTS)
    named, given = [numbers(it, ACCOUNTS) for it in accounts], [numbers(it, AMOUNTS) for it in amounts]
    shape = numpy.broadcast_shapes((1,), *(it.shape for it in (whose, *named, *given)))
    made = numpy.zeros(shape, type_of("COMMAND"))
    made["kind"], made["client"] = KINDS.index(verb) + 1, whose
    for name, account in zip(("account", "other"), named):
        made[name] = account
    for place, amount in enumerate(given):
        made["amounts"][:, place] = amount
    if "h" in VERBS[verb]:
        made["before"] = made["after"] = NO_HINT
    return made


def queries(query: str, accounts: Column = 0) -> Columns:
    """Queries of one name, one for each account."""
    numpy = need_numpy()
    about = numbers(accounts, ACCOUNTS)
    made = numpy.zeros(numpy.broadcast_shapes((1,), about.shape), type_of("QUERY"))
    made["topic"], made["account"] = TOPICS.index(query) + 1, about
    return made


def numbers(column: Column, limit: int) -> Any:
    """A column as an array. What is no whole number (`liq.units`) is a TypeError, one that is not below the limit a
    ValueError."""
    numpy = need_numpy()
    if hasattr(column, "__array__"):
        column = numpy.asarray(column)
        if column.dtype.kind == "O":
            return numpy.array(all_within(column.ravel().tolist(), limit), numpy.uint64).reshape(column.shape)
        if column.dtype.kind not in "iu":
            raise BadType(
                f"a column of {column.dtype} has no whole numbers: ether(), lusd() and rate() make them of text; "
                "astype(\"int64\") does of floats that may be rounded")
        if column.size and (int(column.min()) < 0 or int(column.max()) >= limit):
            raise BadValue(f"a column has numbers that are not from 0 to {limit - 1}")
        return column.astype(numpy.uint64)
    if not hasattr(column, "__iter__"):
        return numpy.uint64(within(column, limit))
    return numpy.array(all_within(column, limit), numpy.uint64)


# ---- replies


def accepted(replies: Columns) -> Any:
    """Which of them are accepted: a mask."""
    return replies["kind"] == ACCEPTED


def columns(replies: Columns, name: str, queries: Optional[Columns] = None) -> Any:
    """The values of all replies to accepted commands of a verb, or to queries of a name, as a named tuple of columns
    (`liq.replies`). What was refused, and a trove or a deposit that there is not, has no row in them: see `has_row`.

    The accounts of troves, deposits and wallets stand in the queries, and not in the replies: with the queries that
    were replied they are a column too, without them that one is None."""
    row = BY_VERB.get(name) or BY_QUERY[name]
    there = has_row(replies, name)
    values = replies["values"][there]
    told = {field: values[..., place] for place, field in enumerate(told_fields(row))}
    if name in ("wallet", "trove", "deposit"):
        told["account"] = None if queries is None else queries["account"][there]
    return row(**told)


def has_row(replies: Columns, name: str) -> Any:
    """Which of them have a row among the columns of that name: a mask."""
    if name in BY_VERB:
        return (replies["kind"] == ACCEPTED) & (replies["which"] == KINDS.index(name) + 1)
    return (replies["kind"] == TOLD) & (replies["which"] == TOPICS.index(name) + 1) & (replies["count"] > 0)


def refusal(reply: Any) -> Optional[Exception]:
    """The refusal that a row of replies says, as a typed call would raise it; None where it was not refused."""
    data = reply.tobytes()
    return None if data[0] in (ACCEPTED, TOLD) else fault_in(data)


def ratios(troves: Trove, price: Column) -> Any:
    """Each trove's collateral at a price, over its debt, as floats: 1.1 is 110 percent."""
    numpy = need_numpy()
    worth = numpy.asarray(troves.coll, float) * numpy.asarray(price, float) / 1e9
    return worth / numpy.asarray(troves.debt, float)


# ---- what the library is given


class Kind(NamedTuple):
    """What a batch has: items of so many bytes, in an array of this type."""

    what: str
    size: int
    type: str


COMMANDS, QUERIES = Kind("commands", ITEM_BYTES, "COMMAND"), Kind("queries", QUERY_BYTES, "QUERY")


WHOSE = struct.Struct(">IQ")  # from byte 4 of a command on: its client and its number
PLACE = struct.Struct("<8xQ")  # of a reply that says where a field fits nothing
NOTHING = bytearray(1)


class Given:
    """A batch that was looked at, and places for as many replies. What is not as the library takes it is an error."""

    def __init__(self, items: Any, kind: Kind, is_written: bool = False) -> None:
        self.kind, self.lent = kind, None
        if is_array(items):
            self._take_array(items, is_written)
        else:
            self._take_bytes(items, is_written)

    def _take_array(self, items: Any, is_written: bool) -> None:
        wanted = type_of(self.kind.type)
        if items.dtype.newbyteorder("=") != wanted.newbyteorder("="):
            raise BadType(f"an array of {items.dtype} has no {self.kind.what}: see liq.batch")
        if items.ndim != 1:
            raise BadValue(f"the {self.kind.what} are no row, but an array of {items.ndim} dimensions")
        if is_written and not items.flags.writeable:
            raise BadValue(f"numbers are written into the {self.kind.what}: copy() this array, which is read-only")
        numpy = need_numpy()
        # A copy of those that lie apart, as a slice's do, or whose bytes are turned, as by numpy's concatenate.
        self.items = numpy.ascontiguousarray(items, wanted)
        self.lent = items if is_written and self.items is not items else None
        self.count, self.items_at = len(items), self.items.ctypes.data
        self.replies = numpy.zeros(self.count, type_of("REPLY"))
        self.replies_at = self.replies.ctypes.data

    def _take_bytes(self, items: Any, is_written: bool) -> None:
        view = memoryview(items)
        if not view.c_contiguous or view.nbytes % self.kind.size:
            raise BadValue(f"not whole {self.kind.what} of {self.kind.size} bytes side by side")
        if view.readonly and is_written:
            raise BadValue(f"numbers are written into the {self.kind.what}: give a bytearray")
        # Queries are words: what does not begin at one is copied.
        is_copied = view.readonly or self.kind is QUERIES and address_of(items) % 4 > 0
        self.items = bytearray(view) if is_copied else items
        self.lock = locked(self.items)
        self.count, self.items_at = view.nbytes // self.kind.size, ctypes.addressof(self.lock)
        self.replies = bytearray(ITEM_BYTES * self.count)
        self.replies_at = address_of(self.replies)

    def numbered(self, next_number: Callable[[int], int]) -> "Given":
        """The same commands, copied, those with number 0 under their clients' next numbers."""
        copied = bytearray(memoryview(self.items).cast("B")) if self.count else bytearray()
        known: Dict[int, int] = {}
        for at in range(4, len(copied), ITEM_BYTES):
            client, number = WHOSE.unpack_from(copied, at)
            if number == 0 and client < ACCOUNTS:
                known[client] = known.get(client) or next_number(client)
                WHOSE.pack_into(copied, at, client, known[client])
        self.items, self.lock = copied, locked(copied)
        self.items_at = ctypes.addressof(self.lock)
        return self

    def part(self, done: int, count: int) -> Tuple[int, int, int, int]:
        """So many items from an index on, and the places of their replies."""
        return self.items_at + self.kind.size * done, count, self.replies_at + ITEM_BYTES * done, count

    def why(self, status: int, done: int) -> Optional[Why]:
        """What a status says of the item at which a call stopped; None where it came to its end."""
        if status == OK:
            return None
        if status == BAD:
            place: int = PLACE.unpack_from(memoryview(self.replies).cast("B"), ITEM_BYTES * done)[0]
            return place
        return MemoryError() if status == NO_MEMORY else RuntimeError(f"the library gave {status}")

    def answered(self, done: int, why: Optional[Why]) -> Columns:
        """The replies to all items. Raises `BatchStopped` where there is a reason why not all are answered."""
        if self.lent is not None:
            self.lent["number"] = self.items["number"]
        if why is None:
            return self.replies
        raise BatchStopped(done, why, self.replies[: done * (1 if is_array(self.replies) else ITEM_BYTES)])


def is_array(items: Any) -> bool:
    """Whether it is an array of numpy's."""
    return "numpy" in sys.modules and isinstance(items, sys.modules["numpy"].ndarray)


def locked(buffer: Any) -> ctypes.c_char:
    """The first byte of a buffer that may be written, of which no size changes and nothing is freed as long as this is
    kept: a call lets other threads run. An empty one is nowhere: some place stands for it."""
    return ctypes.c_char.from_buffer(buffer if len(buffer) else NOTHING)


def address_of(buffer: Any) -> int:
    """Where a buffer begins that may be written, and that nobody else has."""
    return ctypes.addressof(locked(buffer))
