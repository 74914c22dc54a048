"""A market in this process, without files and without a run: the engine as a library (`liq.library`).

    market = Market()
    owner = market.client(1)
    owner.fund(1, ether(10))
    print(owner.open(1, ether(10), lusd(4000)), owner.preview.adjust(1, borrow=lusd(1000)))
    worse = market.fork()
    worse.client(2).price(lusd(460))

Calls, refusals and rows are those of a `Service`. Nothing outlasts the process but what `save` gave.
"""
import ctypes
import hashlib
import os
import struct
import threading
import weakref
from array import array
from pathlib import Path
from types import TracebackType
from typing import Any, List, Optional, Sequence, Tuple, Type

from .batch import COMMANDS, QUERIES, BatchStopped, Given, Why, address_of, locked
from .client import ACCOUNTS, AMOUNTS, NO_HINTS, Calls, Row
from .ends import Folder, NoJournal
from .errors import BadValue, LiqError, NotReady, OutOfMemory
from .journal import BYTES_MOST, LIMITS, RECORD_BYTES, RECORDS_MOST, DamagedFile, Disk, Journal, holds_journal
from .library import ACCEPTED, BAD, DEPOSITS, ITEM_BYTES, NO_MEMORY, OK, SHORT, TOLD, TOUCHED, TROVES, WALLETS
from .library import Library, Place, load_library
from .packed import ASKED, FORMS, fault_in, hint_words, pack_query
from .queries import Queries
from .refusals import JournalFull, Refusal
from .replies import Done, System
from .units import Whole, all_within, within

ROTATING = 0  # who rotates, where no other client is named
ROWS_AT_ONCE = 2**16
TEXT_AT_ONCE = 2**16
ACCOUNTS_AT_ONCE = 2**10
SAVE_NAME = b"LIQSNAP1"
LIBRARY, MODEL = "library", "model"  # engines
UNPROVED = r"Market\(engine=.model.\)"  # how the warning begins that MODEL is unproved
NO_LIBRARY = Path("liq.model")  # the path of what the model stands on
NO_WORDS = hint_words(NO_HINTS)
DONE: Any = Done()
new_tuple = tuple.__new__
ONE: Any = ctypes.c_size_t.from_param(1)


class MarketClosed(LiqError):
    """The market was closed."""


class Busy(LiqError):
    """Another thread's call is in this market, which is for one at a time. Other markets, and forks of it, are free."""


class BadSave(BadValue):
    """The bytes are not what `save` gave: they were damaged or cut short, or something else made them."""


class Held:
    """A place with a market, and the lock that each call takes. `with` takes it and gives the place."""

    def __init__(self) -> None:
        self.place, self.lock = Place(), threading.Lock()
        self.at: Optional[ctypes.c_void_p] = ctypes.c_void_p(ctypes.addressof(self.place))

    def __enter__(self) -> ctypes.c_void_p:
        if not self.lock.acquire(False):
            raise Busy(Busy.__doc__)
        if self.at is None:
            self.lock.release()
            raise MarketClosed("the market was closed")
        return self.at

    def __exit__(self, *_: Any) -> None:
        self.lock.release()

    def let_go(self, calls: Library) -> None:
        """Frees the market, of which nobody has more than this. In a call of another thread it is left as it is."""
        if self.lock.acquire(False):
            self.at = None
            calls.one.close(ctypes.byref(self.place))
            self.lock.release()


class Market(Queries):
    """A market in memory, as it opens. `close` frees it, or the end of `with`, or the collector.

    It is for one call at a time: one that another thread makes meanwhile raises `Busy`. Behind `close` each raises
    `MarketClosed`. A batch, a fork, a save and a load let other threads run; a single call does not, it is too short.

    After 1,000,000 accepted commands it is full, as a journal is. Then a typed call, or a batch of `next`, first sends
    `rotate` as the client `rotating`, whose next number that takes. With None nobody does, and each command is refused:
    `JournalFull`.

    `engine` is "library", the proved one, or "model": the rules in Python, unproved and slower, which want no
    library. Where it is None it is LIQ_ENGINE of the environment, and else the library.

    A copy of it, deep or not, is a fork; pickled it is what `save` gives. The forked child of a process without other
    threads has forks of all its markets; where there were other threads it may call none.
    """

    def __init__(
        self, library: Optional[Folder] = None, rotating: Optional[Whole] = ROTATING, engine: Optional[str] = None
    ) -> None:
        self._set_up(engine_of(library, engine), rotating)
        must(self._calls.one.open(self._held.at))

    def _set_up(self, calls: Library, rotating: Optional[Whole]) -> None:
        """A place, without a market yet."""
        self.rotating, self._calls = None if rotating is None else within(rotating, ACCOUNTS), calls
        self._held, self._sent, self._reply = Held(), bytearray(ITEM_BYTES), bytearray(ITEM_BYTES)
        # What each call of one item takes: arguments that are ready, in half the time of numbers that are made some.
        place, sent, reply = map(ctypes.byref, (self._held.place, locked(self._sent), locked(self._reply)))
        self._item = place, sent, ONE, reply, ONE
        self._end = weakref.finalize(self, self._held.let_go, calls)
        self._end.atexit = False  # at the end of the process a thread may still be in a call

    @classmethod
    def _empty(cls, calls: Library, rotating: Optional[Whole]) -> "Market":
        made = cls.__new__(cls)
        made._set_up(calls, rotating)
        return made

    # ---- its life

    def close(self) -> None:
        """Frees it; nothing where it is closed already."""
        if not self.closed:
            with self._held as at:
                self._held.at = None
                self._end.detach()
                self._calls.one.close(at)

    @property
    def library(self) -> Path:
        """The library that it is a market of."""
        return self._calls.path

    @property
    def engine(self) -> str:
        """What answers: "library", or "model" where it is unproved."""
        return MODEL if self._calls.path == NO_LIBRARY else LIBRARY

    @property
    def closed(self) -> bool:
        """Whether it was closed."""
        return self._held.at is None

    def __enter__(self) -> "Market":
        return self

    def __exit__(
        self, kind: Optional[Type[BaseException]], fault: Optional[BaseException], trace: Optional[TracebackType]
    ) -> None:
        self.close()

    def fork(self) -> "Market":
        """The same market once more, on its own from then on: with its count of records and its clients' numbers."""
        made = self._empty(self._calls, self.rotating)
        with self._held as at:
            must(self._calls.many.fork(at, made._held.at))
        return made

    __copy__ = fork

    def __deepcopy__(self, _: Any) -> "Market":
        return self.fork()

    def save(self) -> bytes:
        """The market as bytes, for `load`. Equal markets save equal bytes."""
        with self._held as at:
            saved = bytearray(self._calls.one.save_size(at))
            must(self._calls.many.save(at, address_of(saved), len(saved)))
        return bytes(saved)

    @classmethod
    def load(
        cls, saved: bytes, library: Optional[Folder] = None, rotating: Optional[Whole] = ROTATING,
        engine: Optional[str] = None,
    ) -> "Market":
        """The market that was saved. Raises `BadSave`. Nobody knows the history of one that comes in."""
        made, data = cls._empty(engine_of(library, engine), rotating), bytearray(memoryview(saved))
        status = made._calls.many.load(made._held.at, address_of(data), len(data))
        if status == BAD:
            raise BadSave("these are not the bytes of a market that was saved")
        must(status)
        return made

    def __reduce__(self) -> Tuple[Any, ...]:
        return load_again, (self.save(), self.rotating, self.engine)

    @classmethod
    def of_folder(
        cls, folder: Folder, most: int = BYTES_MOST, library: Optional[Folder] = None,
        rotating: Optional[Whole] = ROTATING, engine: Optional[str] = None,
    ) -> "Market":
        """The market that stands on a folder's files, each of at most `most` bytes. Nothing is written there, and no
        run may have them open: `liq.backup` copies them beside one. Raises `NoJournal`, or `DamagedFile` as
        `liq.journal` does and where the rules refuse a record."""
        if not holds_journal(folder):
            raise NoJournal(folder)
        disk = Journal(folder, most).current
        try:
            made = cls.load(save_of(disk), library, rotating, engine)
        except BadSave:
            raise DamagedFile(disk.path, 0, "its checkpoint is of no sound market") from None
        made._follow(disk)
        return made

    def _follow(self, disk: Disk) -> None:
        """Carries out a disk's records."""
        last = {client: row.last for client, row in disk.checkpoint.clients.items()} if disk.checkpoint else {}
        for index, command in enumerate(disk.commands, 1):
            if last.get(command.client) == command.number:
                raise DamagedFile(disk.path, index, "it comes again")
            last[command.client] = command.number
        for first in range(0, len(disk.commands), ROWS_AT_ONCE):
            begin = disk.begin + first * RECORD_BYTES
            end = min(disk.end, begin + ROWS_AT_ONCE * RECORD_BYTES)
            commands = [disk.data[at + 1 : at + 1 + ITEM_BYTES] for at in range(begin, end, RECORD_BYTES)]
            kinds = self.do(b"".join(commands))[::ITEM_BYTES]
            if kinds.count(ACCEPTED) < len(kinds):
                refused = next(index for index, kind in enumerate(kinds) if kind != ACCEPTED)
                raise DamagedFile(disk.path, first + refused + 1, "the rules refuse it")

    # ---- commands

    def client(self, client: Whole) -> "MarketClient":
        """A client of this market. The market numbers its commands, so there may be several of one number."""
        return MarketClient(self, client)

    def _rotate(self) -> None:
        """Rotates, as who rotates. In a call that has the lock."""
        form = FORMS["rotate"]
        form.pack_into(self._sent, 0, form.kind, self.rotating, 0)
        self._reply[0] = 0
        self._calls.one.next(*self._item)
        if self._reply[0] != ACCEPTED:
            raise fault_in(self._reply)

    # ---- queries

    def _told(self, query: str, account: int = 0) -> Optional[Sequence[int]]:
        """The numbers that are told; None where there is no such trove or deposit. In a call that has the lock."""
        topic, read, _ = ASKED[query]
        pack_query(self._sent, 0, topic, account)
        self._reply[0] = 0
        self._calls.one.ask(*self._item)
        if self._reply[0] != TOLD:
            raise fault_in(self._reply)
        return read(self._reply, 8) if self._reply[2] else None

    def _row(self, query: str, *accounts: int) -> Optional[Sequence[int]]:
        with self._held:
            return self._told(query, *accounts)

    def _rows(self, query: str, accounts: Sequence[int]) -> List[Optional[Sequence[int]]]:
        asked = ASKED[query]
        rows: List[Optional[Sequence[int]]] = []
        for begin in range(0, len(accounts), ROWS_AT_ONCE):
            part = array("I", accounts[begin : begin + ROWS_AT_ONCE])
            queries = array("I", [asked.topic, 0]) * len(part)
            queries[1::2] = part
            rows += [told[1:] if told[0] else None for told in asked.read_all(self.query(queries))]
        return rows

    # ---- batches

    def do(self, commands: Any) -> Any:
        """The replies to many commands, each under the number that it has (`liq.batch`). Refusals are among them, and
        stop nothing. A repetition is replied as the first time. Raises `BatchStopped` at what is no command."""
        return self._batch(self._calls.many.do, Given(commands, COMMANDS))

    def next(self, commands: Any) -> Any:
        """The same under each client's next number, which the market puts into the commands: they come with number 0,
        and go as `do`, another market or `liq run` may take them. Where the market is full it rotates: see
        `rotating`."""
        given = Given(commands, COMMANDS, is_written=True)
        done = 0
        why: Optional[Why] = None
        with self._held as at:
            while why is None and done < given.count:
                try:
                    part = min(given.count - done, self._make_room())
                except (Refusal, MemoryError) as fault:
                    why = fault
                else:
                    answered = self._calls.many.next(at, *given.part(done, part))
                    done += answered.done
                    why = given.why(answered.status, done)
        return given.answered(done, why)

    def preview(self, commands: Any) -> Any:
        """What each command would be replied now, each as if it were the only one; nothing changes. One with number 0
        is looked at under its client's next number."""
        return self._batch(self._calls.many.preview, Given(commands, COMMANDS).numbered(self.next_number))

    def query(self, queries: Any) -> Any:
        """The replies to many queries (`liq.batch.queries`)."""
        return self._batch(self._calls.many.ask, Given(queries, QUERIES))

    def _batch(self, call: Any, given: Given) -> Any:
        with self._held as at:
            answered = call(at, *given.part(0, given.count))
        return given.answered(answered.done, given.why(answered.status, answered.done))

    def _make_room(self) -> int:
        """How many commands may be accepted before it is full; where none may, it first rotates. In a call that has
        the lock."""
        if self.rotating is None:
            return RECORDS_MOST
        left = RECORDS_MOST - (self._told("system") or ())[-1]
        if left == 0:
            self._rotate()
            left = RECORDS_MOST
        return left

    def lines(self, text: str) -> List[str]:
        """The replies to lines, as `liq run` writes them; so nobody rotates. Raises `BatchStopped` at a line that is no
        request."""
        data = bytearray(text.encode("ascii"))
        if data and not data.endswith(b"\n"):
            data += b"\n"
        told, room, taken, status = bytearray(), bytearray(TEXT_AT_ONCE), 0, SHORT
        data_at, room_at = address_of(data), address_of(room)
        with self._held as at:
            while status == SHORT:
                written = self._calls.many.lines(at, data_at + taken, len(data) - taken, room_at, len(room))
                told += room[: written.written]
                taken, status = taken + written.taken, written.status
        replies = told.decode("ascii").splitlines()
        if status == NO_MEMORY:
            raise BatchStopped(len(replies), MemoryError(), replies)
        if status != OK:
            line = bytes(data[taken : data.index(b"\n", taken)]).decode("ascii")
            raise BatchStopped(len(replies), line, replies)
        return replies

    def ask(self, line: str) -> List[str]:
        """The words of the reply to a line. A client of its own numbers commands: see `client`."""
        if "\n" in line:
            raise BadValue("more than one line")
        return self.lines(line + "\n")[0].split(" ")

    # ---- lists of accounts

    def trove_accounts(self, first: Whole = 0, most: Optional[Whole] = None) -> List[int]:
        """Who has a trove, in the order of the list: from the one of the lowest ratio on, which is liquidated and
        redeemed first. Those from index `first` on, and at most so many: all in one call take one walk along the list,
        and each page walks to its `first` again."""
        return self._accounts(TROVES, first, most)

    def deposit_accounts(self, first: Whole = 0, most: Optional[Whole] = None) -> List[int]:
        """Who has a deposit in the Stability Pool, ascending."""
        return self._accounts(DEPOSITS, first, most)

    def wallet_accounts(self, first: Whole = 0, most: Optional[Whole] = None) -> List[int]:
        """Whose wallet is not empty, ascending."""
        return self._accounts(WALLETS, first, most)

    def touched(self) -> List[int]:
        """Whom the last accepted command names, and then whose place in the list of troves it changed besides: of
        `liquidate_lowest` and `redeem` the owners. Nobody in a fork, and in a market that was loaded."""
        return self._accounts(TOUCHED, 0, None)

    def _accounts(self, which: int, first: Whole, most: Optional[Whole]) -> List[int]:
        first, most = within(first, AMOUNTS), None if most is None else within(most, AMOUNTS)
        found: List[int] = []
        with self._held as at:
            # Each call walks the list of troves to where it begins, so they come in one.
            troves = System(*self._told("system") or ()).troves
            places = max(troves, 1) if which == TROVES else ACCOUNTS_AT_ONCE
            while most is None or len(found) < most:
                places = places if most is None else min(places, most - len(found))
                room = array("I", [0]) * places
                answered = self._calls.one.accounts(at, which, first + len(found), address_of(room), places)
                if answered.status not in (OK, SHORT):
                    must(answered.status)
                found += room[: answered.done]
                if answered.status == OK:
                    break
                places = ACCOUNTS  # each call goes through the whole list, so the second takes all that there can be
        return found


class MarketClient(Calls):
    """A client of a market in memory: its commands as typed calls, each under its next number, which the market
    knows."""

    def __init__(self, market: Market, client: Whole) -> None:
        self.market, self.client = market, within(client, ACCOUNTS)
        self._call, self._is_numbered = market._calls.one.next, True
        self._parts = market._held, market._sent, market._reply, market._item

    @property
    def next_number(self) -> int:
        """The number of the next new command."""
        return self.market.next_number(self.client)

    @property
    def preview(self) -> "Preview":
        """The same calls, which give what they would give, or raise what they would raise, and change nothing."""
        return Preview(self.market, self.client)

    def _send(
        self, row: Type[Row], verb: str, accounts: Sequence[Whole], amounts: Sequence[Whole],
        hints: Optional[Sequence[Optional[Whole]]] = None,
    ) -> Row:
        # Much of it is written out, for it is all that a typed call costs beside the rules.
        kind, pack_into, read = FORMS[verb]
        for account in accounts:
            if type(account) is not int or not 0 <= account < ACCOUNTS:
                accounts = all_within(accounts, ACCOUNTS)
                break
        for amount in amounts:
            if type(amount) is not int:
                amounts = all_within(amounts, AMOUNTS)
                break
        words = () if hints is None else NO_WORDS if hints is NO_HINTS else hint_words(hints)
        number = 0 if self._is_numbered else self.next_number
        held, sent, reply, item = self._parts
        if not held.lock.acquire(False):
            raise Busy(Busy.__doc__)
        try:
            if held.at is None:
                raise MarketClosed("the market was closed")
            pack_into(sent, 0, kind, self.client, number, *accounts, *amounts, *words)
            reply[0] = 0
            self._call(*item)
            if reply[0] == ACCEPTED and reply[1] == kind:
                told: Row = new_tuple(row, read(reply, 8)) if read else DONE  # row(*read(reply, 8)), in half the time
                return told
            fault = fault_in(reply)
        except struct.error:
            all_within(amounts, AMOUNTS)
            raise
        finally:
            held.lock.release()
        if not isinstance(fault, JournalFull):
            raise fault
        sent_again: Row = self._where_full(fault, row, verb, accounts, amounts, hints)
        return sent_again

    def _where_full(self, fault: JournalFull, *command: Any) -> Any:
        """What comes of a command that a full market refused: it is sent again, behind a rotation."""
        if self.market.rotating is None:
            raise fault
        self.market.client(self.market.rotating).rotate()
        return self._send(*command)


class Preview(MarketClient):
    """What a client's next command would be replied, as typed calls; nothing changes."""

    def __init__(self, market: Market, client: Whole) -> None:
        super().__init__(market, client)
        self._call, self._is_numbered = market._calls.one.preview, False

    def _where_full(self, fault: JournalFull, *command: Any) -> Any:
        raise fault


# ---- beneath


def save_of(disk: Disk) -> bytes:
    """What a market saves with which a disk's records begin."""
    checkpoint = disk.data[disk.header : disk.begin]
    found = disk.checkpoint
    if found is None:
        from .model import Market as Model  # not at the top: few callers want it
        from .model.disks import checkpoint_bytes

        checkpoint = checkpoint_bytes(Model(LIMITS[disk.version]).checkpoint())
    elif (found.generation, found.version) != (disk.generation, disk.version):
        raise DamagedFile(disk.path, 0, "its checkpoint is of another generation or limit")
    saved = SAVE_NAME + bytes(8) + checkpoint
    return saved + hashlib.sha256(saved).digest()


def load_again(saved: bytes, rotating: Optional[int], engine: Optional[str] = None) -> Market:
    """A market that was pickled."""
    return Market.load(saved, rotating=rotating, engine=engine)


def engine_of(library: Optional[Folder], engine: Optional[str]) -> Library:
    """The calls of an engine, by its name. Raises `NoLibrary`."""
    named = engine or os.environ.get("LIQ_ENGINE") or LIBRARY
    if named not in (LIBRARY, MODEL):
        raise BadValue(f"an engine is {LIBRARY} or {MODEL}, and not {named!r}")
    if named == LIBRARY or library is not None and engine is None:
        return load_library(library)
    if library is not None:
        raise BadValue(f"a library is named, and the engine is {MODEL}, which has none")
    from .model.engine import model_library  # only here: the model stands on this package's words, and they on this

    return model_library()


def must(status: int) -> None:
    """Raises what a status says that may be none but that there was no memory."""
    if status == NO_MEMORY:
        raise OutOfMemory("there was no memory for it, and nothing changed")
    if status != OK:
        raise NotReady(f"the library gave {status}")
