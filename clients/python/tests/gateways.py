"""What the cases of the gateway share: a desk in this process, or a gateway as a process of its own."""
import os
import subprocess
import sys
import time
from pathlib import Path
from typing import Any, Dict, List, Optional

from liq import Journal
from liq.gateway.book import Book
from liq.gateway.caller import Caller, Gone
from liq.gateway.desk import Answers, Desk, Job, Parts
from liq.gateway.keeper import Keeper
from liq.gateway.lines import Refused, read_line
from liq.gateway.log import Counts, Log
from liq.gateway.run import Run
from liq.gateway.table import parse_table
from liq.service import Service

from .market import TOP, OverProgram

SECONDS = 60.0
ME = os.geteuid()
TABLE = f"""
[gateway]
client = 1
relay = {ME}

[alice]
relayed = yes
client = 11
accounts = 1-9
verbs = price fund take send open provide withdraw wallet pools system next_number

[bob]
relayed = yes
client = 12
accounts = 10-19   # and no other
sees = *
verbs = fund take send wallet trove
connections = 2
"""


class Desks(OverProgram):
    """Cases over a desk, whose turns are called one by one."""

    def setUp(self) -> None:
        super().setUp()
        self.bounded()
        self.market = self.folder / "market"
        Service(self.market, create=True).close()
        self.table = parse_table(TABLE)
        self.answers: Dict[Job, str] = {}
        self.log = Log(self.folder / "log")
        self.addCleanup(self.log.close)
        self.desk = self.made()

    def deliver(self, answers: Answers) -> None:
        self.answers.update(answers)

    def made(
        self, program: Optional[Path] = None, adopts: bool = False, archive: Optional[List[str]] = None, **times: float
    ) -> Desk:
        """A desk over the market and its book."""
        book = Book(self.market / "gateway.book")
        self.addCleanup(book.close)
        run = Run(self.market, program, **times)
        self.addCleanup(run.kill)
        keeper = Keeper(self.market, self.folder / "archive", archive) if archive else None
        try:
            return Desk(Parts(run, book, self.log, Counts(), keeper), self.table, self.deliver, adopts)
        except BaseException:
            run.kill()
            book.close()
            raise

    def leave(self) -> None:
        """Leaves the desk as a kill would: without a further word to the book."""
        self.desk.run.kill()
        self.desk.book.close()

    def again(self, **how: Any) -> None:
        """Another desk over what the first one left."""
        self.leave()
        self.desk = self.made(**how)

    def job(self, name: str, line: str) -> Job:
        caller = self.table.callers[name]
        found = read_line(line.encode("ascii"))
        caller.check(found)
        return Job(caller, found)

    def ask(self, *lines: str) -> List[str]:
        """The answers to lines of alice and bob in turn, in one turn of the desk."""
        jobs = []
        said: List[Optional[str]] = []
        for name, line in zip(("alice", "bob"), lines):
            try:
                jobs.append(self.job(name, line))
                said.append(None)
            except Refused as refused:
                said.append(str(refused))
        self.desk.turn(jobs)
        return [answer or self.answers[jobs.pop(0)] for answer in said]

    def accepted(self) -> List[str]:
        """The calls of the journal's commands."""
        return [command.call for command in Journal(self.market).current.commands]


class Gateways(OverProgram):
    """Cases over a gateway in a process of its own."""

    def setUp(self) -> None:
        super().setUp()
        self.bounded()
        self.market = self.folder / "market"
        Service(self.market, create=True).close()
        self.socket, self.counts, self.log = self.folder / "socket", self.folder / "counts", self.folder / "log"
        self.table = self.folder / "table"
        self.write_table(TABLE)

    def write_table(self, text: str) -> None:
        self.table.write_text(text)
        self.table.chmod(0o600)

    def words(self, *more: str) -> List[str]:
        words = [sys.executable, "-m", "liq.gateway", str(self.market), "--socket", str(self.socket)]
        words += ["--table", str(self.table), "--counts", str(self.counts), "--log", str(self.log)]
        return [*words, *more]

    @property
    def environment(self) -> Dict[str, str]:
        return {**os.environ, "PYTHONPATH": str(TOP / "clients/python"), "PYTHONDONTWRITEBYTECODE": "1"}

    def start(self, *more: str, **variables: str) -> "subprocess.Popen[bytes]":
        """A gateway that listens."""
        return self.begun(self.words(*more), None, **variables)

    def begun(self, words: List[str], log: Optional[int], **variables: str) -> "subprocess.Popen[bytes]":
        """A gateway by all its words, and its standard error."""
        process = subprocess.Popen(words, env={**self.environment, **variables}, stderr=log)
        self.addCleanup(process.wait)
        self.addCleanup(process.kill)
        while process.poll() is None:
            try:
                with Caller(self.counts) as asking:
                    asking.read()
                return process
            except (OSError, Gone):
                time.sleep(0.02)
        raise AssertionError(f"the gateway ended with {process.returncode}: {self.log.read_text()}")

    def ends(self, *more: str) -> int:
        """The status of a gateway that can't begin."""
        return subprocess.run(self.words(*more), env=self.environment, timeout=SECONDS).returncode

    def said(self) -> str:
        """The last line of the log."""
        return self.log.read_text().splitlines()[-1]

    def caller(self, name: str = "alice") -> Caller:
        made = Caller(self.socket, name, SECONDS)
        self.addCleanup(made.close)
        return made

    def is_gone(self, caller: Caller) -> bool:
        """Whether the gateway has ended a connection."""
        try:
            caller.read()
            return False
        except Gone:
            return True
