"""The book: what each caller's key became, and the command of each client that has no reply yet.

The journal says which commands count, and numbers them; it does not say under which key they were sent, and a refusal
is not in it. So two things are written here, and are on the disk, before the next step is taken:

    before a command is passed on   its client, number, key and words, as the one command of this client without a reply
    before its reply goes out       the reply, under the key; and that nothing is without a reply

A stop between the two leaves a command without a reply, one a client at most. The journal's next number for that client
then says whether it was carried out, and liq keeps the reply of a client's last command: so nothing is carried out
twice, and each reply that went out is found again.

It is a database of SQLite, which its process holds for itself.
"""
import contextlib
import os
import sqlite3
from pathlib import Path
from typing import Dict, Iterator, Mapping, NamedTuple, Optional, Sequence

from ..ends import Folder, Unfit
from ..journal import sync
from ..own import NotOwn, check_own

KEYS_KEPT = 100_000  # of each caller, the newest
KEYS_SLACK = 1_000
VERSION = 1
TITLE = 0x6C697167  # "liqg"
PARTS = ("", "-wal", "-shm", "-journal")  # the files of the database: SQLite takes what is there for its own
TABLES = """
CREATE TABLE slots (
    client INTEGER PRIMARY KEY, caller TEXT NOT NULL UNIQUE, accepted INTEGER NOT NULL,
    number INTEGER, key TEXT, call TEXT
);
CREATE TABLE replies (
    client INTEGER NOT NULL, turn INTEGER NOT NULL, key TEXT NOT NULL, number INTEGER NOT NULL, call TEXT NOT NULL,
    reply TEXT NOT NULL, PRIMARY KEY (client, turn), UNIQUE (client, key)
) WITHOUT ROWID;
"""


class BadBook(Unfit):
    """A book is none, is held by another gateway, can't be written, or others may write it; or it says otherwise than
    the table."""

    def __init__(self, path: Folder, why: str) -> None:
        super().__init__(path, why)
        self.path, self.why = Path(path), why

    def __str__(self) -> str:
        return f"the book {self.path}: {self.why}"


class Order(NamedTuple):
    """A command as it is passed on."""

    client: int
    number: int
    key: Optional[str]
    call: str

    @property
    def line(self) -> str:
        """The command as liq's line."""
        return f"{self.client} {self.number} {self.call}"


class Kept(NamedTuple):
    """What a key became."""

    call: str
    reply: str


class Slot(NamedTuple):
    """A client: whose it is, its last accepted number, and its command without a reply, if there is one."""

    client: int
    caller: str
    accepted: int
    pending: Optional[Order] = None


class Settled(NamedTuple):
    """What became of a command: its reply, or None where it was not carried out."""

    order: Order
    reply: Optional[str]

    @property
    def is_accepted(self) -> bool:
        return self.reply is not None and self.reply.startswith("ok")


class Book:
    """An open book. It is for one thread at a time."""

    def __init__(self, path: Folder, keys_kept: int = KEYS_KEPT) -> None:
        self.path, self.keys_kept = Path(path), keys_kept
        self.slots: Dict[int, Slot] = {}
        is_new = not self.path.exists()
        self._check_rights()
        before = os.umask(0o077)
        try:
            self._base = sqlite3.connect(self.path, timeout=0, isolation_level=None, check_same_thread=False)
        except sqlite3.Error as fault:
            raise BadBook(path, str(fault)) from None
        finally:
            os.umask(before)
        try:
            self._open(is_new)
        except sqlite3.Error as fault:
            self._base.close()
            held = "locked" in str(fault)
            raise BadBook(path, "another gateway holds it" if held else str(fault)) from None
        except BaseException:
            self._base.close()
            raise

    def _check_rights(self) -> None:
        """Raises `BadBook` where somebody else could have made or could write one of its files."""
        for part in PARTS:
            path = self.path.with_name(self.path.name + part)
            try:
                check_own(path)
            except NotOwn as fault:
                raise BadBook(path, fault.why if fault.path == path else str(fault)) from None
            except OSError as fault:
                raise BadBook(path, str(fault)) from None

    def _open(self, is_new: bool) -> None:
        for setting in "locking_mode = EXCLUSIVE", "journal_mode = WAL", "synchronous = FULL":
            self._base.execute(f"PRAGMA {setting}")
        with self._change():
            (title,), (version,) = self._row("PRAGMA application_id"), self._row("PRAGMA user_version")
            if title == version == 0 and not self._base.execute("SELECT 1 FROM sqlite_master").fetchall():
                for table in TABLES.split(";"):
                    self._base.execute(table)
                self._base.execute(f"PRAGMA application_id = {TITLE}")
                self._base.execute(f"PRAGMA user_version = {VERSION}")
            elif (title, version) != (TITLE, VERSION):
                raise BadBook(self.path, "it is none of this program's, or of another version")
        if is_new:
            sync(self.path.absolute().parent)
        for client, caller, accepted, number, key, call in self._base.execute("SELECT * FROM slots"):
            pending = None if number is None else Order(client, number, key, call)
            self.slots[client] = Slot(client, caller, accepted, pending)
        counts = self._base.execute("SELECT client, MAX(turn), COUNT(*) FROM replies GROUP BY client").fetchall()
        self._turns = {client: turn for client, turn, _ in counts}
        self._counts = {client: count for client, _, count in counts}

    def close(self) -> None:
        self._base.close()

    def _row(self, query: str) -> "tuple[int, ...]":
        return tuple(self._base.execute(query).fetchone())

    @contextlib.contextmanager
    def _change(self) -> Iterator[None]:
        """What is done within is on the disk behind it, or nothing of it is."""
        self._base.execute("BEGIN IMMEDIATE")
        try:
            yield
            self._base.execute("COMMIT")
        except BaseException:
            with contextlib.suppress(sqlite3.Error):
                self._base.execute("ROLLBACK")
            raise

    # ---- what stands

    def reply(self, client: int, key: str) -> Optional[Kept]:
        """What a key of a client became; None where it is not known."""
        found = self._base.execute("SELECT call, reply FROM replies WHERE client = ? AND key = ?", (client, key))
        row = found.fetchone()
        return None if row is None else Kept(*row)

    # ---- changes: each is on the disk when the call has come back, or nothing of it is and it raises sqlite3.Error

    def enroll(self, clients: Mapping[int, str]) -> None:
        """Notes whose client numbers these are. Raises `BadBook` where one was somebody else's, or its owner had
        another, and it was used: the journal has their commands under the old one."""
        used = {slot.client: slot for slot in self.slots.values() if self._is_used(slot)}
        had = {slot.caller: slot.client for slot in used.values()}
        for client, caller in clients.items():
            if client in used and used[client].caller != caller:
                raise BadBook(self.path, f"client {client} is {used[client].caller}'s, and the table says {caller}'s")
            if had.get(caller, client) != client:
                raise BadBook(self.path, f"{caller} has client {had[caller]}, and the table says {client}")
        after = {**{client: Slot(client, caller, 0) for client, caller in clients.items()}, **used}
        if after != self.slots:
            with self._change():
                unused = [(client,) for client in self.slots if client not in used]
                self._base.executemany("DELETE FROM slots WHERE client = ?", unused)
                rows = [(slot.client, slot.caller) for slot in after.values() if slot.client not in used]
                self._base.executemany("INSERT INTO slots (client, caller, accepted) VALUES (?, ?, 0)", rows)
            self.slots = after

    def _is_used(self, slot: Slot) -> bool:
        """Whether a client has sent something."""
        return slot.accepted > 0 or slot.pending is not None or self._counts.get(slot.client, 0) > 0

    def intend(self, orders: Sequence[Order]) -> None:
        """Notes commands, of different clients, before they are passed on."""
        with self._change():
            for order in orders:
                self._write_slot(self.slots[order.client]._replace(pending=order))
        for order in orders:
            self.slots[order.client] = self.slots[order.client]._replace(pending=order)

    def settle(self, settled: Sequence[Settled]) -> None:
        """Notes what became of commands, of different clients, before their replies go out. One that is noted as
        without a reply no more is left as it is."""
        settled = [done for done in settled if self.slots[done.order.client].pending == done.order]
        after = []
        for done in settled:
            slot = self.slots[done.order.client]
            after.append(slot._replace(accepted=slot.accepted + done.is_accepted, pending=None))
        with self._change():
            for slot in after:
                self._write_slot(slot)
            kept = [done for done in settled if done.reply is not None and done.order.key is not None]
            for done in kept:
                self._keep(done)
        for slot in after:
            self.slots[slot.client] = slot
        for done in kept:
            client = done.order.client
            self._turns[client] = self._turns.get(client, 0) + 1
            self._counts[client] = self._counts.get(client, 0) + 1
        for client in {done.order.client for done in kept}:
            if self._counts[client] >= self.keys_kept + KEYS_SLACK:
                self._forget(client)

    def adopt(self, client: int, last: int) -> None:
        """Takes the journal's last number of a client for the book's, and forgets the replies that are not in it."""
        with self._change():
            self._base.execute("DELETE FROM replies WHERE client = ? AND number > ?", (client, last))
            slot = self.slots[client]._replace(accepted=last, pending=None)
            self._write_slot(slot)
        self.slots[client] = slot
        (self._counts[client],) = self._row(f"SELECT COUNT(*) FROM replies WHERE client = {client:d}")

    def _write_slot(self, slot: Slot) -> None:
        number, key, call = (None, None, None) if slot.pending is None else slot.pending[1:]
        self._base.execute(
            "UPDATE slots SET accepted = ?, number = ?, key = ?, call = ? WHERE client = ?",
            (slot.accepted, number, key, call, slot.client),
        )

    def _keep(self, done: Settled) -> None:
        order = done.order
        row = (order.client, self._turns.get(order.client, 0) + 1, order.key, order.number, order.call, done.reply)
        self._base.execute("INSERT INTO replies VALUES (?, ?, ?, ?, ?, ?)", row)

    def _forget(self, client: int) -> None:
        """Forgets the oldest keys of a client beyond those that are kept. Where that fails it is tried again later."""
        oldest = self._turns[client] - self.keys_kept
        with contextlib.suppress(sqlite3.Error), self._change():
            self._base.execute("DELETE FROM replies WHERE client = ? AND turn <= ?", (client, oldest))
            (self._counts[client],) = self._row(f"SELECT COUNT(*) FROM replies WHERE client = {client:d}")
