"""The calls of the library over the rules in Python: what `Market(engine="model")` stands on.

They are those of clients/c/liq.h, at the same addresses and with the same bytes, so that all above them is the same. It
is unproved, and slower: a typed call takes some five times as long, a batch more.
"""
import ctypes
import functools
import hashlib
import struct
import warnings
from pathlib import Path
from typing import Any, Callable, Dict, List, Optional, Tuple

from ..ends import Unfit
from ..errors import LiqError
from ..grammar import NoRequest, Query
from ..journal import KINDS, RECORDS_MOST, VERBS, Command, read_checkpoint, read_command
from ..library import ABI, ACCEPTED, BAD, ITEM_BYTES, LINE_MOST, NO_COMMAND, NO_MARKET, NO_MEMORY, OK, OUT_OF_MEMORY
from ..library import DEPOSITS, QUERY_BYTES, REFUSED, SHORT, TOLD, TOPICS, TOUCHED, TROVES, WALLETS
from ..library import Answered, Library, Place, Written
from ..memory import NO_LIBRARY, SAVE_NAME
from ..refusals import Refusal
from .disks import checkpoint_bytes
from .requests import answer, ask, carry_out, next_number
from .sound import first_unsound
from .state import Market

OPEN = 0x6C69715F6F70656E  # the state of a place that holds a market
MOVES_OTHERS = ("liquidate_lowest", "redeem")  # the verbs that move troves which they don't name
RULE_OF_RECORDS = 9  # of a sound state, which depends on the count of records
TOLD_ONCE = (
    'Market(engine="model") is the rules in Python: unproved, and slower than the library'
)
Each = Callable[[bytes, int], Tuple[int, bytes]]


class UnprovedWarning(LiqError, UserWarning):
    """What answers was not built from proofs."""


@functools.lru_cache(maxsize=None)
def model_library() -> "ModelLibrary":
    """The calls, for this process. The first time it warns."""
    warnings.warn(TOLD_ONCE, UnprovedWarning, stacklevel=4)
    return ModelLibrary()


def address(at: Any) -> int:
    """An address, however it is passed."""
    if isinstance(at, int):
        return at
    return (at.value or 0) if isinstance(at, ctypes.c_void_p) else ctypes.addressof(at._obj)


def count_of(count: Any) -> int:
    """A count. That of a single item comes as an argument that is ready, which tells no number."""
    return count if isinstance(count, int) else 1


def reply(kind: int, which: int = 0, numbers: Tuple[int, ...] = (), size: int = 8) -> bytes:
    """A reply in 96 bytes."""
    told = bytes([kind, which, len(numbers)]) + bytes(5) + b"".join([it.to_bytes(size, "little") for it in numbers])
    return told.ljust(ITEM_BYTES, b"\0")


class ModelLibrary(Library):
    """The markets of a process, each at the place that holds it."""

    def __init__(self) -> None:
        self.path = NO_LIBRARY
        self.one = self.many = self
        self.markets: Dict[int, Market] = {}
        self.touched_by: Dict[int, List[int]] = {}
        self.count = 0

    # ---- places

    def abi(self) -> int:
        return ABI

    def held(self, at: Any) -> Optional[int]:
        """The number of the market at a place."""
        place = Place.from_address(address(at))
        return place.inside if place.state == OPEN else None

    def put(self, at: Any, market: Market) -> int:
        place = Place.from_address(address(at))
        self.close(at)
        self.count += 1
        self.markets[self.count], self.touched_by[self.count] = market, []
        place.inside, place.state = self.count, OPEN
        return OK

    def open(self, at: Any) -> int:
        return self.put(at, Market())

    def close(self, at: Any) -> None:
        held, place = self.held(at), Place.from_address(address(at))
        if held is not None:
            del self.markets[held], self.touched_by[held]
        place.inside, place.state = None, 0

    def fork(self, at: Any, into: Any) -> int:
        held = self.held(at)
        return NO_MARKET if held is None else self.put(into, self.markets[held].copied())

    # ---- saves

    def saved(self, at: Any) -> bytes:
        market = self.markets[self.held(at) or 0]
        data = SAVE_NAME + market.records.to_bytes(8, "big") + checkpoint_bytes(market.checkpoint())
        return data + hashlib.sha256(data).digest()

    def save_size(self, at: Any) -> int:
        return 0 if self.held(at) is None else len(self.saved(at))

    def save(self, at: Any, to: Any, count: Any) -> int:
        data = self.saved(at)
        if count_of(count) < len(data):
            return SHORT
        ctypes.memmove(address(to), data, len(data))
        return OK

    def load(self, at: Any, begin: Any, count: Any) -> int:
        data = ctypes.string_at(address(begin), count_of(count))
        if data[:8] != SAVE_NAME or hashlib.sha256(data[:-32]).digest() != data[-32:]:
            return BAD
        try:
            found = read_checkpoint(Path("left.liq"), data[16:-32], 0)
        except Unfit:
            return BAD
        records = int.from_bytes(data[8:16], "big")
        if found is None or records > RECORDS_MOST:
            return BAD
        broken = first_unsound(found)
        if broken and not (broken == RULE_OF_RECORDS and records):
            return BAD
        market = Market.begun_with(found)
        market.records = records
        return self.put(at, market)

    # ---- items

    def items(self, at: Any, begin: Any, count: Any, to: Any, places: Any, size: int, each: Each) -> Answered:
        """Answers items one by one, up to one that is none or the last for which there is room."""
        if self.held(at) is None:
            return Answered(0, NO_MARKET)
        given, room = count_of(count), count_of(places)
        for done in range(min(given, room)):
            here = address(begin) + size * done
            status, told = self.item(ctypes.string_at(here, size), here, each)
            ctypes.memmove(address(to) + ITEM_BYTES * done, told, ITEM_BYTES)
            if status != OK:
                return Answered(done, status)
        return Answered(min(given, room), OK if given <= room else SHORT)

    def item(self, data: bytes, here: int, each: Each) -> Tuple[int, bytes]:
        """One item answered, whose bytes stand at this address."""
        try:
            return each(data, here)
        except MemoryError:
            return NO_MEMORY, reply(OUT_OF_MEMORY)

    def step(self, market: Market, command: Command) -> bytes:
        """A command carried out, and its reply."""
        kept = market.clients.get(command.client)
        try:
            values = carry_out(market, command)
        except Refusal as refusal:
            return reply(REFUSED, refusal.code, refusal.values, 16)
        verb = kept.verb if kept is not None and kept.last == command.number else command.verb
        return reply(ACCEPTED, KINDS.index(verb) + 1, tuple(values))

    def told(self, held: int, command: Command) -> bytes:
        """The same of the market of this number, for which it is kept whom the command touches."""
        market = self.markets[held]
        before = set(market.order) if command.verb in MOVES_OTHERS else set()
        count = market.records
        told = self.step(market, command)
        if market.records != count and told[0] == ACCEPTED:
            others = before ^ set(market.order) if before else set()
            moved = {account for _, account in others} - set(command.accounts)
            self.touched_by[held] = [*dict.fromkeys(command.accounts), *sorted(moved)]
        return told

    def do(self, at: Any, begin: Any, count: Any, to: Any, places: Any) -> Answered:
        def each(data: bytes, _: int) -> Tuple[int, bytes]:
            command = command_of(data)
            if command is None:
                return BAD, reply(NO_COMMAND, 0, (place_of(data),))
            return OK, self.told(self.held(at) or 0, command)

        return self.items(at, begin, count, to, places, ITEM_BYTES, each)

    def next(self, at: Any, begin: Any, count: Any, to: Any, places: Any) -> Answered:
        def each(data: bytes, here: int) -> Tuple[int, bytes]:
            command = command_of(data)
            if command is None or command.number:
                return BAD, reply(NO_COMMAND, 0, (8 if command else place_of(data),))
            held = self.held(at) or 0
            command = command._replace(number=next_number(self.markets[held], command.client))
            ctypes.memmove(here + 8, command.number.to_bytes(8, "big"), 8)
            return OK, self.told(held, command)

        return self.items(at, begin, count, to, places, ITEM_BYTES, each)

    def preview(self, at: Any, begin: Any, count: Any, to: Any, places: Any) -> Answered:
        def each(data: bytes, _: int) -> Tuple[int, bytes]:
            command = command_of(data)
            if command is None:
                return BAD, reply(NO_COMMAND, 0, (place_of(data),))
            return OK, self.step(self.markets[self.held(at) or 0].copied(), command)

        return self.items(at, begin, count, to, places, ITEM_BYTES, each)

    def ask(self, at: Any, begin: Any, count: Any, to: Any, places: Any) -> Answered:
        def each(data: bytes, _: int) -> Tuple[int, bytes]:
            topic, account = struct.unpack("=2I", data)
            if not 1 <= topic <= len(TOPICS):
                return BAD, reply(NO_COMMAND, 0, (0,))
            name = TOPICS[topic - 1]
            accounts = () if name in ("pools", "system") else (account,)
            if account and not accounts:
                return BAD, reply(NO_COMMAND, 0, (4,))
            try:
                return OK, reply(TOLD, topic, tuple(ask(self.markets[self.held(at) or 0], Query(name, accounts))))
            except Refusal as refusal:
                return OK, reply(REFUSED, refusal.code, refusal.values, 16)

        return self.items(at, begin, count, to, places, QUERY_BYTES, each)

    def lines(self, at: Any, begin: Any, count: Any, to: Any, room: Any) -> Written:
        """Lines answered, as many as there is room for their replies."""
        held = self.held(at)
        if held is None:
            return Written(0, 0, NO_MARKET)
        data, taken, told, status = ctypes.string_at(address(begin), count_of(count)), 0, bytearray(), OK
        while True:
            end = data.find(b"\n", taken)
            if end < 0:
                break
            if len(told) + LINE_MOST > count_of(room):
                status = SHORT
                break
            try:
                told += answer(self.markets[held], data[taken:end].decode("latin-1")).encode() + b"\n"
            except NoRequest:
                status = BAD
                break
            taken = end + 1
        ctypes.memmove(address(to), bytes(told), len(told))
        return Written(taken, len(told), status)

    # ---- accounts

    def accounts(self, at: Any, which: int, first: int, to: Any, places: Any) -> Answered:
        held = self.held(at)
        if held is None:
            return Answered(0, NO_MARKET)
        market = self.markets[held]
        lists: Dict[int, Callable[[], List[int]]] = {
            TROVES: lambda: [account for _, account in reversed(market.order)],
            DEPOSITS: lambda: sorted(market.deposits),
            WALLETS: lambda: sorted([account for account, row in market.wallets.items() if any(row)]),
            TOUCHED: lambda: self.touched_by[held or 0],
        }
        if which not in lists:
            return Answered(0, BAD)
        left = lists[which]()[first:]
        part = left[: count_of(places)]
        ctypes.memmove(address(to), struct.pack(f"={len(part)}I", *part), 4 * len(part))
        return Answered(len(part), OK if len(left) <= count_of(places) else SHORT)


def command_of(data: bytes) -> Optional[Command]:
    """A command of its bytes, a rotation too."""
    if data[0] == len(KINDS) and not any(data[1:4]) and not any(data[16:]):
        return Command(int.from_bytes(data[4:8], "big"), int.from_bytes(data[8:16], "big"), "rotate", (), (), ())
    return read_command(data)


def place_of(data: bytes) -> int:
    """Where the first field begins that fits no command."""
    if not 1 <= data[0] <= len(KINDS):
        return 0
    if any(data[1:4]):
        return 1
    shape = VERBS[KINDS[data[0] - 1]]
    for letter, begin, size, most in (("a", 16, 4, 2), ("v", 24, 8, 5), ("h", 64, 4, 2)):
        for index in range(shape.count(letter), most):
            if any(data[begin + size * index : begin + size * (index + 1)]):
                return begin + size * index
    return 72
