"""A market for several callers: a Unix socket in front of one run of liq.

usage: python3 -m liq.gateway FOLDER --socket PATH --table FILE [--counts PATH] [--archive DIR] [--book FILE]
                              [--log FILE] [--idle SECONDS] [--mode MODE] [--adopt]
       python3 -m liq.gateway FOLDER --adopt --table FILE [--book FILE] [--log FILE]

Who connects is known by the system's word, and the table says what each may do: `python3 -m pydoc liq.gateway.table`
has its words, docs/GATEWAY.md its routines. It writes nothing to standard output; the log is a JSON object a line.
With --adopt and no socket it adopts, and ends.

It ends with 0 where it is stopped by TERM or INT; with 1 where it can't begin or can't go on;
with 2 where its words are not understood; with 5 or 6 where the run of liq has: then look first, and begin nothing by
itself. HUP has it read the table again and open its log anew, USR1 has it archive and rotate.
"""
import argparse
import asyncio
import contextlib
import os
import signal
import socket
import sqlite3
import sys
from pathlib import Path
from typing import List, Optional

from ..console import as_process, parser_of
from ..ends import End, Unfit
from ..errors import BadValue
from ..unproved import refuse_unproved
from .book import Book
from .desk import Desk, Parts, Stopped, is_hopeless
from .door import SECONDS_BETWEEN_SWEEPS, SECONDS_IDLE, Door
from .keeper import Keeper
from .log import Counts, Log
from .run import Run
from .sockets import given, made, tell_systemd
from .table import Table, read_table

BOOK = "gateway.book"
CALLERS, COUNTS = "callers", "counts"  # the names of systemd's sockets
EXAMPLES = """
python3 -m liq.gateway market --socket callers --table table --archive archive --log log
python3 -m liq.gateway market --socket callers --table table --counts counts --mode 666
"""
SWITCH_SECONDS = 0.0005  # between the desk's thread and the door's


class Gateway:
    """The parts together, in a loop."""

    def __init__(self, asked: argparse.Namespace, table: Table, log: Log, parts: Parts) -> None:
        self.asked, self.log = asked, log
        self.door = Door(table, log, parts.counts, asked.idle)
        self.desk = Desk(parts, table, self.door.deliver, asked.adopt)
        self.door.desk = self.desk

    async def serve(self, callers: socket.socket, counts: Optional[socket.socket]) -> Stopped:
        """Serves until the desk ends: by a signal, or since it can't go on."""
        loop = asyncio.get_running_loop()
        for number in (signal.SIGTERM, signal.SIGINT):
            loop.add_signal_handler(number, self.desk.stop)
        loop.add_signal_handler(signal.SIGHUP, self.read_again)
        loop.add_signal_handler(signal.SIGUSR1, self.desk.rotate)
        tasks = [
            loop.create_task(self.door.listen(callers, self.door.let_in)),
            loop.create_task(self.sweep(float(os.environ.get("WATCHDOG_USEC", "0")) / 10**6)),
        ]
        if counts:
            tasks.append(loop.create_task(self.door.listen(counts, self.door.tell_counts)))
        tell_systemd("READY=1")
        self.log.write("begun", folder=str(self.asked.folder), pid=os.getpid())
        why = await loop.run_in_executor(None, self.desk.work)
        tell_systemd("STOPPING=1")
        for task in tasks:
            task.cancel()
        await self.door.close()
        return why

    async def sweep(self, watchdog: float) -> None:
        """Ends what is idle, and tells systemd that the loop goes on."""
        while True:
            await asyncio.sleep(SECONDS_BETWEEN_SWEEPS)
            self.door.sweep()
            if watchdog:
                tell_systemd("WATCHDOG=1")

    def read_again(self) -> None:
        """Takes the table as it is now, from the next line on, where it is one; and opens the log anew."""
        loop = asyncio.get_running_loop()
        try:
            self.log.reopen()
            table = read_table(self.asked.table)
        except (Unfit, OSError) as fault:
            self.log.write("table not taken", why=str(fault))
            return

        def told(why: Optional[str]) -> None:
            if why is None:
                loop.call_soon_threadsafe(self.door.change_table, table)
                self.log.write("table taken", callers=len(table.callers))
            else:
                self.log.write("table not taken", why=why)

        self.desk.change_table(table, told)


async def serve(asked: argparse.Namespace, log: Log) -> Stopped:
    """Begins all parts, and serves."""
    refuse_unproved(asked.folder)
    with contextlib.ExitStack() as opened:
        table = read_table(asked.table)
        book = Book(asked.book or Path(asked.folder) / BOOK)
        opened.callback(book.close)
        of_systemd = given()
        callers = of_systemd.get(CALLERS)
        if callers is None and asked.socket is None and asked.adopt:
            return adopted(asked.folder, book, log, table)
        if callers is None:
            if asked.socket is None:
                raise Stopped(2, "--socket is missing, and systemd gave none")
            callers = opened.enter_context(made(asked.socket, asked.mode))
        counts = of_systemd.get(COUNTS)
        if counts is None and asked.counts:
            counts = opened.enter_context(made(asked.counts, asked.mode))
        run = Run(asked.folder)
        opened.callback(run.kill)
        keeper = Keeper(asked.folder, asked.archive) if asked.archive else None
        gateway = Gateway(asked, table, log, Parts(run, book, log, Counts(), keeper))
        why = await gateway.serve(callers, counts)
    return why


def adopted(folder: Path, book: Book, log: Log, table: Table) -> Stopped:
    """Has the book go on from the market, and serves nobody."""
    run = Run(folder)
    try:
        desk = Desk(Parts(run, book, log, Counts()), table, lambda _: None, adopts=True)
        desk.stop()
        return desk.work()
    finally:
        run.kill()


def parsed(words: List[str]) -> argparse.Namespace:
    parser = parser_of("gateway", __doc__, EXAMPLES)
    parser.add_argument("folder", metavar="FOLDER", type=Path, help="the market's folder, which has a journal")
    parser.add_argument("--socket", metavar="PATH", type=Path, help="for callers; systemd's `callers` if left out")
    parser.add_argument("--table", metavar="FILE", type=Path, required=True, help="who may do what")
    parser.add_argument("--counts", metavar="PATH", type=Path, help="a second socket, which tells counts")
    parser.add_argument("--archive", metavar="DIR", type=Path, help="rotates a full journal, behind `liq.archive`")
    parser.add_argument("--book", metavar="FILE", type=Path, help=f"keys and replies; FOLDER/{BOOK} if left out")
    parser.add_argument("--log", metavar="FILE", type=Path, help="JSON lines; standard error if left out")
    parser.add_argument("--idle", metavar="SECONDS", type=positive, default=SECONDS_IDLE, help="without a whole line")
    parser.add_argument("--mode", metavar="MODE", type=rights, default=0o660, help="of the sockets; 660 if left out")
    said = "takes the market's numbers where the book has others; ends then where there is no socket"
    parser.add_argument("--adopt", action="store_true", help=said)
    return parser.parse_args(words)


def positive(word: str) -> float:
    seconds = float(word)
    if not 0 < seconds <= 10**6:
        raise BadValue(f"{word} is no time above 0")
    return seconds


def rights(word: str) -> int:
    mode = int(word, 8)
    if not 0 <= mode <= 0o777:
        raise BadValue(f"{word} has more than rights")
    return mode


def main(words: List[str]) -> int:
    asked = parsed(words)
    sys.setswitchinterval(SWITCH_SECONDS)
    for number in (signal.SIGHUP, signal.SIGUSR1):  # they end nothing that has not begun yet
        signal.signal(number, lambda *_: None)
    try:
        log = Log(asked.log)
    except (Unfit, OSError) as fault:
        print(f"gateway: {fault}", file=sys.stderr)
        return 1
    try:
        why = asyncio.run(serve(asked, log))
    except Stopped as stopped:
        why = stopped
    except End as end:
        why = Stopped(end.status if is_hopeless(end) else 1, str(end))
    except (Unfit, OSError, sqlite3.Error) as fault:
        why = Stopped(1, str(fault))
    log.write("ended", status=why.status, why=why.why)
    log.close()
    return why.status


def command() -> int:
    """The command, with the words of its process."""
    return as_process(main)


if __name__ == "__main__":
    sys.exit(command())
