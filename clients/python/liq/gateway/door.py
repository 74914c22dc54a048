"""The door: connections, who speaks, lines one by one, and time that is bounded.

A connection has one line at the desk at most, and no further one is read until its reply is taken. So what a caller
sends waits in the system's buffers, at that caller's cost; and between two lines of one connection each other one has
its turn.
"""
import asyncio
import socket
import struct
from collections import Counter
from typing import Callable, Dict, Optional, Set

from ..replies import System
from .desk import STOPPED, Desk
from .jobs import Answers, Job
from .lines import LINE_BYTES_MOST, Line, Refused, read_line
from .log import Counts, Log
from .table import Table, own_caller

CREDENTIALS = struct.Struct("3i")  # process, user, group
PIECE_BYTES = 4096
ALL_MOST = 1000  # connections, and those that the relay has not named yet
UNNAMED_MOST = 100
BACKLOG = 128
SECONDS_IDLE = 60.0
SECONDS_BETWEEN_SWEEPS = 0.5
SECONDS_WITHOUT_FILES = 0.1
COUNTS_MOST = 16
SECONDS_OF_COUNTS = 5.0
UNKNOWN = "-"  # in the place of a caller's name
SYSTEM = Line(None, "system", (), "? system", True)


class Connection:
    """A connection, and who speaks on it. `until` is when it has been idle for too long, by the loop's clock; None
    while it is the gateway that makes it wait."""

    def __init__(self, socket: socket.socket, user: int, name: Optional[str]) -> None:
        self.socket, self.user, self.name = socket, user, name
        self.unread = b""
        self.is_skipping = False
        self.until: Optional[float] = None
        self.task: "Optional[asyncio.Task[None]]" = None


class Door:
    """Lets callers in, and hands their lines to the desk."""

    def __init__(self, table: Table, log: Log, counts: Counts, seconds_idle: float = SECONDS_IDLE) -> None:
        self.table, self.log, self.counts, self.seconds_idle = table, log, counts, seconds_idle
        self.desk: Optional[Desk] = None
        self.loop = asyncio.get_running_loop()
        self._all: Set[Connection] = set()
        self._names: Counter[Optional[str]] = Counter()
        self._telling = 0
        self._is_closing = False

    # ---- connections

    async def listen(self, listening: socket.socket, attend: Callable[[socket.socket], None]) -> None:
        """Takes connections, for ever."""
        while True:
            try:
                taken, _ = await self.loop.sock_accept(listening)
            except OSError as fault:  # as where there are too many open files
                self.log.write("not accepted", why=str(fault))
                await asyncio.sleep(SECONDS_WITHOUT_FILES)
                continue
            attend(taken)
            await asyncio.sleep(0)

    def let_in(self, taken: socket.socket) -> None:
        """Attends to a caller's connection, or refuses it whole."""
        taken.setblocking(False)
        user = user_of(taken)
        try:
            connection = Connection(taken, user, self._name_of(user))
            self._admit(connection)
        except Refused as refused:
            self._say(taken, refused)
            taken.close()
            self._refused(UNKNOWN, refused, user=user)
            return
        self._all.add(connection)
        self._names[connection.name] += 1
        connection.task = self.loop.create_task(self._attend(connection))

    def _name_of(self, user: int) -> Optional[str]:
        """Who speaks, by the user at the other end; None for the relay, which will say. Raises `Refused`."""
        if user == self.table.relay:
            return None
        caller = self.table.of_user(user)
        if caller is None:
            raise Refused("caller", f"user {user} is in no row of the table")
        return caller.name

    def _admit(self, connection: Connection) -> None:
        """Raises `Refused` where there are as many connections as there may be."""
        most = UNNAMED_MOST if connection.name is None else self.table.callers[connection.name].connections
        if len(self._all) >= ALL_MOST or self._names[connection.name] >= most:
            raise Refused("connections", f"{most} of yours, or {ALL_MOST} in all, are open: close one")

    async def _attend(self, connection: Connection) -> None:
        """Reads lines and answers them, until the caller goes or has to."""
        try:
            while True:
                line = await self._line(connection)
                if line is None:
                    break
                try:
                    reply = await self._reply(connection, line)
                except Refused as refused:
                    self._refused(connection.name or UNKNOWN, refused, user=connection.user)
                    reply = str(refused)
                    if connection.name is None or refused.name in ("caller", "connections"):
                        self._say(connection.socket, refused)
                        break
                if reply:
                    connection.until = self.loop.time() + self.seconds_idle
                    await self.loop.sock_sendall(connection.socket, reply.encode("ascii", "replace") + b"\n")
                await asyncio.sleep(0)
        except asyncio.CancelledError:
            pass  # it was idle, or all ends: who cancels has said so
        except OSError:
            pass  # the caller is gone
        finally:
            self._names[connection.name] -= 1
            self._all.discard(connection)
            connection.socket.close()

    async def _line(self, connection: Connection) -> Optional[bytes]:
        """The next line, without its LF; None behind the last one. Of one that is too long the front comes, and the
        rest is read and dropped."""
        connection.until = self.loop.time() + self.seconds_idle
        while True:
            line, end, rest = connection.unread.partition(b"\n")
            if end:
                connection.unread = rest
                if not connection.is_skipping:
                    return line
                connection.is_skipping = False
                continue
            if connection.is_skipping or len(line) > LINE_BYTES_MOST:
                connection.unread = b""
                if not connection.is_skipping:
                    connection.is_skipping = True
                    return line
            piece = await self.loop.sock_recv(connection.socket, PIECE_BYTES)
            if not piece:
                if connection.unread and not connection.is_skipping:
                    cut = Refused("half_line", "it has no line end, so it may be cut: nothing was passed on")
                    self._refused(connection.name or UNKNOWN, cut, user=connection.user)
                    self._say(connection.socket, cut)
                return None
            connection.unread += piece
            await asyncio.sleep(0)  # a caller that sends without an end is one among others

    async def _reply(self, connection: Connection, data: bytes) -> str:
        """The reply to a line; empty where the relay says for whom it speaks. Raises `Refused`."""
        if connection.name is None:
            self._rename(connection, data)
            return ""
        caller = self.table.callers.get(connection.name)
        if caller is None or not self.table.may_speak(connection.user, caller):
            raise Refused("caller", f"the table has changed: this connection is no more {connection.name}'s")
        if data.startswith(b"as ") and data.count(b" ") == 1:  # what comes behind it is meant for somebody else
            raise Refused("caller", f"this connection speaks as {caller.name} alone, and no other name is taken")
        line = read_line(data)
        caller.check(line)
        if self._is_closing or self.desk is None:
            raise STOPPED
        answer: "asyncio.Future[str]" = self.loop.create_future()
        connection.until = None
        self.desk.put(Job(caller, line, answer))
        return await answer

    def _rename(self, connection: Connection, data: bytes) -> None:
        """Takes the relay's word for who speaks."""
        words = data.decode("ascii", "replace").split(" ")
        caller = self.table.callers.get(words[1]) if len(words) == 2 and words[0] == "as" else None
        if caller is None or not self.table.may_speak(connection.user, caller):
            raise Refused("caller", "the relay says first: as NAME, of a caller that is relayed")
        self._names[None] -= 1
        connection.name = caller.name
        try:
            self._admit(connection)
        finally:
            self._names[caller.name] += 1

    def deliver(self, answers: Answers) -> None:
        """Hands answers to those that wait for them; from any thread."""
        if answers:
            self.loop.call_soon_threadsafe(hand_out, answers)

    def sweep(self) -> None:
        """Ends connections that were idle for too long: without a whole line, or without taking a reply."""
        now = self.loop.time()
        for connection in list(self._all):
            if connection.until is not None and connection.until < now and connection.task:
                idle = Refused("idle", f"no whole line in {self.seconds_idle:g} seconds, or a reply that was not taken")
                self._refused(connection.name or UNKNOWN, idle, user=connection.user)
                self._say(connection.socket, idle)
                connection.until = None
                connection.task.cancel()

    async def close(self) -> None:
        """Ends all connections, each behind the reply that it waits for."""
        self._is_closing = True
        waiting = [connection.task for connection in self._all if connection.task]
        for connection in list(self._all):
            if connection.until is not None and connection.task:
                self._say(connection.socket, STOPPED)
                connection.task.cancel()
        if waiting:
            await asyncio.wait(waiting, timeout=SECONDS_OF_COUNTS)

    def change_table(self, table: Table) -> None:
        """Judges by another table from the next line on."""
        self.table = table

    # ---- what is said

    def _refused(self, caller: str, refused: Refused, **about: object) -> None:
        self.counts.add("lines", caller=caller, what=f"refused {refused.name}")
        self.log.refused(caller, refused.name, reason=refused.reason, **about)

    @staticmethod
    def _say(to: socket.socket, refused: Refused) -> None:
        """Says it where that doesn't wait."""
        try:
            to.send(f"{refused}\n".encode("ascii", "replace"), socket.MSG_DONTWAIT | socket.MSG_NOSIGNAL)
        except OSError:
            pass

    # ---- counts

    def tell_counts(self, taken: socket.socket) -> None:
        """Writes the counts on a connection of the second socket, and ends it."""
        taken.setblocking(False)
        if self._telling >= COUNTS_MOST:
            taken.close()
            return
        self._telling += 1
        self.loop.create_task(self._tell_counts(taken))

    async def _tell_counts(self, taken: socket.socket) -> None:
        try:
            told = await asyncio.wait_for(self._system(), SECONDS_OF_COUNTS)
        except asyncio.TimeoutError:
            told = {}
        text = self.counts.text(connections=len(self._all), log_lines_lost=self.log.lost, **told)
        try:
            await asyncio.wait_for(self.loop.sock_sendall(taken, text.encode("ascii")), SECONDS_OF_COUNTS)
        except (OSError, asyncio.TimeoutError):
            pass
        finally:
            self._telling -= 1
            taken.close()

    async def _system(self) -> Dict[str, int]:
        """What the market says of itself; nothing where it doesn't answer."""
        if self._is_closing or self.desk is None:
            return {}
        answer: "asyncio.Future[str]" = self.loop.create_future()
        self.desk.put(Job(own_caller(self.table.client), SYSTEM, answer))
        words = (await answer).split(" ")
        return dict(zip((f"market_{name}" for name in System._fields), map(int, words))) if words[0].isdigit() else {}


def user_of(taken: socket.socket) -> int:
    """The user that has connected, as the kernel noted it then."""
    found = taken.getsockopt(socket.SOL_SOCKET, socket.SO_PEERCRED, CREDENTIALS.size)
    _, user, _ = CREDENTIALS.unpack(found)
    return int(user) % 2**32


def hand_out(answers: Answers) -> None:
    """Gives each answer to who waits for it, in the loop's thread."""
    for job, text in answers:
        if not job.waits.done():
            job.waits.set_result(text)
