"""The gateway's desk and book: keys, each moment of a stop, ends of the run, a full journal, a market that is not the
book's."""
import json
import os
import shutil
import sys
import time
import unittest
from typing import Any, Callable, List
from unittest import mock

from liq import NoProgram, Service, refusals
from liq.gateway import book as books
from liq.gateway import desk as desks
from liq.gateway.book import BadBook, Book, Order, Settled
from liq.gateway.desk import Stopped
from liq.gateway.jobs import Job, Queue
from liq.gateway.lines import read_line
from liq.gateway.table import parse_table

from .gateways import TABLE, Desks
from .market import PROGRAM, InFolder

PASSES_ON = f"""
import subprocess, sys
liq = subprocess.Popen([{PROGRAM!r}, "run"], stdin=subprocess.PIPE, stdout=subprocess.PIPE, bufsize=0)
def passed_on(line):
    liq.stdin.write(line.encode())
    return liq.stdout.readline().decode()
def say(reply):
    sys.stdout.write(reply)
    sys.stdout.flush()
"""
ENDS_AT = PASSES_ON + """
for line in sys.stdin:
    if "fund 1 13" in line and ({when}):
        {before}
        sys.exit({status})
    say(passed_on(line))
"""
FULL_AT_3 = PASSES_ON + """
records = 0
for line in sys.stdin:
    is_command = not line.startswith("?") and not line.endswith("rotate\\n")
    if is_command and records >= 3:
        say("no 81 1000000\\n")
        continue
    reply = passed_on(line)
    records = 0 if line.endswith("rotate\\n") else records + (is_command and reply.startswith("ok"))
    say(reply)
"""


class Stop(BaseException):
    """Stands for a kill at this moment."""


class Keys(Desks):
    def test_a_key_gets_its_reply_again(self) -> None:
        for line, reply in (("a fund 1 5", "ok"), ("b take 1 9", "no 14 9 5"), ("c fund 2 1", "ok")):
            self.assertEqual(self.ask(line), [reply])
        self.again()
        self.assertEqual(self.ask("d fund 1 100"), ["ok"])
        for line, reply in (("a fund 1 5", "ok"), ("b take 1 9", "no 14 9 5"), ("c fund 2 1", "ok")):
            self.assertEqual(self.ask(line), [reply])
        self.assertEqual(self.accepted(), ["fund 1 5", "fund 2 1", "fund 1 100"])

    def test_a_key_is_for_one_line(self) -> None:
        self.ask("a fund 1 5")
        self.assertEqual(self.ask("a fund 1 6"), ["refused key a was the key of: fund 1 5"])
        self.assertEqual(self.ask("a2 fund 1 6", "a fund 10 7"), ["ok", "ok"])  # bob's key is not alice's

    def test_without_a_key_it_is_carried_out_each_time(self) -> None:
        self.assertEqual([self.ask("- fund 1 5") for _ in range(3)], [["ok"]] * 3)
        self.assertEqual(self.ask("? wallet 1"), ["15 0"])

    def test_callers_have_their_own_numbers(self) -> None:
        self.assertEqual(self.ask("a fund 1 5", "a fund 10 5"), ["ok", "ok"])
        self.assertEqual(self.ask("? next_number 11", "? wallet 1"), ["2", "5 0"])

    def test_the_oldest_keys_are_forgotten(self) -> None:
        with mock.patch.object(books, "KEYS_SLACK", 2):
            self.desk.book.keys_kept = 3
            for index in range(8):
                self.ask(f"k{index} fund 1 {index + 1}")
            self.assertIsNone(self.desk.book.reply(11, "k0"))
            self.assertEqual(self.ask("k7 fund 1 8"), ["ok"])
            self.assertEqual(len(self.accepted()), 8)


class Moments(Desks):
    """A stop of the gateway at each moment of a turn: the same line again counts once, and a reply that went out
    stays."""

    def stopped_at(self, at: str, line: str) -> None:
        """A turn that is stopped at this moment."""
        def stop(*_: Any, **__: Any) -> None:
            raise Stop

        def behind(call: Callable[..., Any]) -> Callable[..., Any]:
            def stopping(*words: Any) -> Any:
                call(*words)
                raise Stop
            return stopping

        desk = self.desk
        replaced = {
            "before it is noted": mock.patch.object(desk.book, "intend", stop),
            "before it is passed on": mock.patch.object(desk.run, "exchange", stop),
            "before the reply is noted": mock.patch.object(desk.book, "settle", stop),
            "before the reply goes out": mock.patch.object(desk.book, "settle", behind(desk.book.settle)),
        }[at]
        with replaced, self.assertRaises(Stop):
            desk.turn([self.job("alice", line)])

    def test_each_moment(self) -> None:
        for index, moment in enumerate((
            "before it is noted", "before it is passed on", "before the reply is noted", "before the reply goes out",
        )):
            for line, reply in ((f"a{index} fund 1 {index + 1}", "ok"), (f"b{index} take 1 900", "no 14 900 ")):
                self.stopped_at(moment, line)
                self.again()
                self.assertEqual([slot.pending for slot in self.desk.book.slots.values()], [None] * 3, moment)
                self.assertTrue(self.ask(line)[0].startswith(reply), moment)
                self.assertTrue(self.ask(line)[0].startswith(reply), moment)
        self.assertEqual(self.accepted(), ["fund 1 1", "fund 1 2", "fund 1 3", "fund 1 4"])

    def test_another_line_behind_the_stop(self) -> None:
        """The number of what was carried out is not used again."""
        self.stopped_at("before the reply is noted", "a fund 1 5")
        self.again()
        self.assertEqual(self.ask("b fund 1 7"), ["ok"])
        self.assertEqual(self.ask("a fund 1 5"), ["ok"])
        self.assertEqual(self.accepted(), ["fund 1 5", "fund 1 7"])

    def test_a_refusal_that_nobody_saw_is_no_reply(self) -> None:
        self.stopped_at("before the reply is noted", "a take 1 5")
        self.again()
        self.ask("b fund 1 7")
        self.assertEqual(self.ask("a take 1 5"), ["ok"])


class Ends(Desks):
    def over(self, text: str, **how: Any) -> None:
        """A desk over another program."""
        self.again(program=self.stand_in(text), **how)

    def test_a_killed_run(self) -> None:
        self.ask("a fund 1 5")
        assert self.desk.run._process
        self.desk.run._process.kill()
        self.assertEqual(self.ask("b fund 1 6", "a fund 10 1"), ["ok", "ok"])
        self.assertEqual(self.accepted(), ["fund 1 5", "fund 1 6", "fund 10 1"])

    def test_an_end_behind_what_was_carried_out(self) -> None:
        """It is sent once more, and gets its reply without being carried out again."""
        marker = self.folder / "ended"
        before = f"import pathlib; pathlib.Path({str(marker)!r}).touch()"
        before += "; passed_on(line); liq.stdin.close(); liq.wait()"
        self.over(ENDS_AT.format(when=f"not __import__('os').path.exists({str(marker)!r})", before=before, status=3))
        self.assertEqual(self.ask("a fund 1 13", "a fund 10 1"), ["ok", "ok"])
        self.assertEqual(self.accepted(), ["fund 1 13", "fund 10 1"])

    def test_a_line_at_which_each_run_ends(self) -> None:
        """It is given up behind the second one, and others get their replies."""
        self.over(ENDS_AT.format(when="True", before="pass", status=7))
        self.assertEqual(
            self.ask("a fund 1 13", "a fund 10 1"),
            ["refused run liq ended at it twice, and it was not carried out", "ok"],
        )
        self.assertEqual(self.ask("b fund 1 1"), ["ok"])
        self.again()
        self.assertEqual(self.ask("a fund 1 13"), ["ok"])  # it had no reply, so its key is free

    def test_a_query_at_which_each_run_ends(self) -> None:
        self.over(ENDS_AT.replace("fund 1 13", "? wallet 1").format(when="True", before="pass", status=7))
        said = self.ask("? wallet 1", "a fund 10 1")
        self.assertEqual((said[0][:11], said[1]), ("refused run", "ok"))

    def test_what_liq_calls_no_request(self) -> None:
        self.over(ENDS_AT.format(when="True", before="print('bad line 5')", status=2))
        self.assertEqual(
            self.ask("a fund 1 13", "a fund 10 1"), ["refused bad_line liq takes it for no request", "ok"]
        )

    def test_a_disk_fault_ends_all(self) -> None:
        """Nothing is begun by itself behind it, and the key says later what became of the line."""
        self.over(ENDS_AT.format(when="True", before="passed_on(line); print('disk fault')", status=5))
        with self.assertRaises(Stopped) as stopped:
            self.desk.turn([self.job("bob", "a fund 10 1"), self.job("alice", "a fund 1 13")])
        self.assertEqual(stopped.exception.status, 5)
        self.assertEqual([text[:15] for text in self.answers.values()], ["ok", "refused stopped"])
        self.again()
        self.assertEqual(self.ask("a fund 1 13", "a fund 10 1"), ["ok", "ok"])
        self.assertEqual(self.accepted(), ["fund 10 1", "fund 1 13"])

    def test_a_run_that_says_nothing(self) -> None:
        marker = self.folder / "slept"
        before = f"import pathlib, time; pathlib.Path({str(marker)!r}).touch(); time.sleep(100)"
        when = f"not __import__('os').path.exists({str(marker)!r})"
        self.over(ENDS_AT.format(when=when, before=before, status=0), seconds=0.3)
        self.assertEqual(self.ask("a fund 1 13", "a fund 10 1"), ["ok", "ok"])

    def test_a_run_that_has_had_all_its_lines(self) -> None:
        with mock.patch("liq.service.LINES_OF_A_RUN", 4):
            self.again()
            for index in range(5):
                self.assertEqual(self.ask(f"k{index} fund 1 1", f"k{index} fund 10 1"), ["ok", "ok"])
        self.assertEqual(self.ask("? wallet 1", "? wallet 10"), ["5 0", "5 0"])

    def test_a_run_that_never_begins(self) -> None:
        self.over(PASSES_ON + "for line in sys.stdin: say(passed_on(line))")
        self.stand_in("import sys; sys.exit(7)")
        self.desk.run.kill()
        self.desk.run.program = str(self.folder / "stand-in")
        with mock.patch.object(desks, "SECONDS_BETWEEN_STARTS", 0), self.assertRaises(Stopped):
            self.desk._begin_again([])

    def test_a_run_that_the_system_does_not_begin_at_once(self) -> None:
        self.ask("a fund 1 5")
        assert self.desk.run._process
        self.desk.run._process.kill()
        spawn, faults = self.desk.run._spawn, [OSError(24, "too many open files"), BlockingIOError(11, "no processes")]

        def spawned() -> Any:
            if faults:
                raise faults.pop()
            return spawn()

        with mock.patch.object(desks, "SECONDS_BETWEEN_STARTS", 0), mock.patch.object(self.desk.run, "_spawn", spawned):
            self.assertEqual(self.ask("b fund 1 6", "a fund 10 1"), ["ok", "ok"])
        self.assertEqual(self.accepted(), ["fund 1 5", "fund 1 6", "fund 10 1"])

    def test_a_program_that_is_gone_for_a_moment(self) -> None:
        """As while another one is installed. Where it stays away that is no end of liq's own."""
        self.ask("a fund 1 5")
        spawn, faults = self.desk.run._spawn, [NoProgram(70, "none")] * (desks.STARTS_MOST - 1)

        def spawned() -> Any:
            if faults:
                raise faults.pop()
            return spawn()

        quick = mock.patch.object(desks, "SECONDS_BETWEEN_STARTS", 0)
        with quick, mock.patch.object(self.desk.run, "_spawn", spawned):
            for wanted in ("ok", None):
                assert self.desk.run._process
                self.desk.run._process.kill()
                if wanted:
                    self.assertEqual(self.ask("b fund 1 6"), [wanted])
                    faults += [NoProgram(70, "none")] * desks.STARTS_MOST
                    continue
                with self.assertRaises(Stopped) as stopped:
                    self.ask("c fund 1 7")
                self.assertEqual((stopped.exception.status, faults), (1, []))

    def test_a_disk_fault_while_a_table_is_looked_at(self) -> None:
        """No run is begun behind it."""
        ends = ENDS_AT.replace("fund 1 13", "next_number 44")
        self.over(ends.format(when="True", before="print('disk fault')", status=5))
        told: List[Any] = []
        self.desk.change_table(parse_table(TABLE.replace("client = 12", "client = 44")), told.append)
        with self.assertRaises(Stopped) as stopped:
            self.desk._change_tables()
        self.assertEqual((stopped.exception.status, len(told), self.desk.run.pid), (5, 1, None))


class Books(Desks):
    def test_a_market_that_was_brought_back(self) -> None:
        self.ask("a fund 1 5")
        self.leave()
        copy = self.folder / "copy"
        shutil.copytree(self.market, copy)
        self.desk = self.made()
        self.ask("b fund 1 6")
        self.leave()
        for name in "left.liq", "right.liq":
            shutil.copyfile(copy / name, self.market / name)
        with self.assertRaises(Stopped) as stopped:
            self.made()
        self.assertIn("the market is behind the book: of alice it has accepted 1 commands", str(stopped.exception))
        self.desk = self.made(adopts=True)
        self.assertEqual(self.ask("a fund 1 5"), ["ok"])
        self.assertEqual(self.accepted(), ["fund 1 5"])
        self.assertEqual(self.ask("b fund 1 6"), ["ok"])  # its reply stood no more
        self.assertEqual(self.accepted(), ["fund 1 5", "fund 1 6"])

    def test_a_market_that_was_written_beside_the_gateway(self) -> None:
        self.leave()
        with Service(self.market) as service:
            service.client(11).fund(1, 5)
        with self.assertRaises(Stopped) as stopped:
            self.made()
        self.assertIn("the market is ahead of the book", str(stopped.exception))
        self.desk = self.made(adopts=True)
        self.assertEqual(self.ask("a fund 1 6", "? wallet 1"), ["ok", "11 0"])

    def test_a_table_with_a_client_that_the_market_has(self) -> None:
        """It is refused, and leaves nothing in the book that a later start would mind."""
        self.leave()
        with Service(self.market) as service:
            service.client(33).fund(1, 5)
        self.desk = self.made()
        told: List[Any] = []
        self.desk.change_table(parse_table(TABLE.replace("client = 12", "client = 33")), told.append)
        self.desk._change_tables()
        self.assertIn("the market is ahead of the book: of bob", told[0])
        self.again()
        self.assertEqual(self.ask("a fund 1 1", "a fund 10 1"), ["ok", "ok"])

    def test_a_book_that_can_not_be_written_for_a_while(self) -> None:
        """As on a full disk. What was passed on is found, whether liq goes on or ends meanwhile."""
        for is_killed in (False, True):
            fault = books.sqlite3.OperationalError("database or disk is full")
            key = f"a{is_killed:d}"
            with mock.patch.object(self.desk.book, "settle", side_effect=fault):
                self.assertEqual(self.ask(f"{key} fund 1 5")[0][:12], "refused book")
                self.assertEqual(self.ask("b fund 1 5", "? wallet 10")[0][:12], "refused book")
            if is_killed:
                assert self.desk.run._process
                self.desk.run._process.kill()
                self.desk._settle_rest()
            self.assertEqual(self.ask(f"{key} fund 1 5", "? wallet 10"), ["ok", "0 0"])
        self.assertEqual(self.accepted(), ["fund 1 5", "fund 1 5"])

    def test_a_run_that_ends_while_the_book_can_not_be_written(self) -> None:
        """And a gateway that begins then: queries are answered, and what was passed on is found once it can."""
        fault = books.sqlite3.OperationalError("database or disk is full")
        with mock.patch.object(Book, "settle", side_effect=fault):
            lost = "refused book it was passed on, and its reply was not noted: send it again, with its key"
            self.assertEqual(self.ask("a fund 1 5", "a fund 10 5"), [lost] * 2)
            assert self.desk.run._process
            self.desk.run._process.kill()
            self.assertEqual(self.ask("? wallet 1", "? wallet 10"), ["5 0", "5 0"])
            self.again()
            self.assertEqual(self.ask("? wallet 1", "b fund 10 5")[0], "5 0")
        self.assertEqual(self.ask("a fund 1 5", "a fund 10 5"), ["ok", "ok"])
        self.assertEqual(self.accepted(), ["fund 1 5", "fund 10 5"])

    def test_numbers_that_are_not_the_books(self) -> None:
        self.desk.book.slots[11] = self.desk.book.slots[11]._replace(accepted=5)
        with self.assertRaises(Stopped):
            self.ask("a fund 1 5")

    def test_a_book_that_is_gone(self) -> None:
        self.ask("a fund 1 5")
        self.leave()
        for path in self.market.glob("gateway.book*"):
            path.unlink()
        self.assertRaises(Stopped, self.made)


class Tables(Desks):
    """A table that is changed while a line waits, which the door has judged by the one before."""

    def change(self, text: str) -> None:
        told: List[Any] = []
        self.desk.change_table(parse_table(text), told.append)
        self.desk._change_tables()
        self.assertEqual(told, [None])

    def said(self, job: Job) -> str:
        self.desk.turn([job])
        return self.answers[job]

    def test_a_caller_that_is_gone(self) -> None:
        """Others go on, also where it had never sent anything, so that the book has no client of its own for it."""
        waits = self.job("bob", "a fund 10 5")
        self.change(TABLE[: TABLE.index("[bob]")])
        self.desk.turn([waits, self.job("alice", "a fund 1 5")])
        self.assertEqual([text[:14] for text in self.answers.values()], ["refused caller", "ok"])
        self.assertEqual(self.accepted(), ["fund 1 5"])

    def test_a_client_that_is_somebody_elses_now(self) -> None:
        waits = self.job("bob", "a fund 10 5")
        self.change(TABLE.replace("[bob]", "[carol]"))
        self.assertEqual(self.said(waits)[:14], "refused caller")
        self.assertEqual(self.ask("? next_number 11"), ["1"])
        self.assertEqual(self.accepted(), [])

    def test_what_is_allowed_no_more(self) -> None:
        waits = [self.job("alice", line) for line in ("a fund 2 5", "b fund 1 5", "? wallet 2", "? wallet 1")]
        self.change(TABLE.replace("1-9", "1"))
        self.assertEqual(
            [self.said(job) for job in waits],
            ["refused account 2 is none of your accounts", "ok", "refused account 2 is none of your accounts", "5 0"],
        )

    def test_another_user_for_a_caller(self) -> None:
        waits = self.job("alice", "a fund 1 5")
        self.change(TABLE.replace("[alice]\nrelayed = yes", "[alice]\nuser = 12345"))
        self.assertEqual(self.said(waits)[:14], "refused caller")


class Queues(unittest.TestCase):
    def job(self, name: str) -> Job:
        return Job(parse_table(TABLE).callers[name], read_line(b"? pools"))

    def test_one_of_each_caller(self) -> None:
        queue = Queue()
        alices, bobs = [self.job("alice") for _ in range(3)], [self.job("bob") for _ in range(2)]
        for job in alices + bobs:
            queue.put(job)
        self.assertEqual(queue.take(0), [alices[0], bobs[0]])
        queue.put_back([alices[0], bobs[0]])
        self.assertEqual([queue.take(0) for _ in range(4)], [[a, b] for a, b in zip(alices, bobs)] + [[alices[2]], []])

    def test_those_that_have_waited_come_first(self) -> None:
        queue = Queue()
        jobs = {name: [self.job(name) for _ in range(2)] for name in ("alice", "bob")}
        for job in jobs["alice"] + jobs["bob"]:
            queue.put(job)
        taken = [queue.take(0, most=1)[0] for _ in range(4)]
        self.assertEqual(taken, [jobs["alice"][0], jobs["bob"][0], jobs["alice"][1], jobs["bob"][1]])

    def test_a_wake_in_front_of_the_waiting(self) -> None:
        queue = Queue()
        queue.wake()
        begin = time.monotonic()
        self.assertEqual(queue.take(30), [])
        self.assertLess(time.monotonic() - begin, 20)

    def test_nothing_is_taken_behind_the_end(self) -> None:
        queue = Queue()
        job = self.job("alice")
        queue.put(job)
        self.assertEqual(queue.close(), [job])
        self.assertFalse(queue.put(job))


class BookAlone(InFolder):
    """The book by itself."""

    def opened(self, **how: Any) -> Book:
        made = Book(self.folder / "book", **how)
        self.addCleanup(made.close)
        return made

    def test_one_gateway_at_a_time(self) -> None:
        self.opened()
        with self.assertRaises(BadBook) as refused:
            self.opened()
        self.assertIn("another gateway holds it", str(refused.exception))

    def test_what_is_no_book(self) -> None:
        (self.folder / "book").write_bytes(b"no book" * 100)
        self.assertRaises(BadBook, self.opened)

    def test_whose_it_is(self) -> None:
        path = self.folder / "book"
        before = os.umask(0)
        try:
            self.opened().close()
        finally:
            os.umask(before)
        self.assertEqual(path.stat().st_mode & 0o777, 0o600)
        for mode in (0o620, 0o602):
            path.chmod(mode)
            self.assertRaises(BadBook, self.opened)
        path.chmod(0o600)
        if os.geteuid() == 0:
            os.chown(path, 1234, 0)
            self.assertRaises(BadBook, self.opened)

    def test_what_is_settled_twice(self) -> None:
        book = self.opened()
        book.enroll({11: "alice"})
        order = Order(11, 1, "a", "fund 1 5")
        book.intend([order])
        for _ in range(2):
            book.settle([Settled(order, "ok")])
        self.assertEqual(book.slots[11].accepted, 1)

    def test_a_client_that_was_never_used(self) -> None:
        """A table may be mended before the first command."""
        book = self.opened()
        book.enroll({1: "gateway", 11: "alice"})
        book.enroll({1: "gateway", 11: "bob", 12: "alice"})
        book.close()
        self.assertEqual({slot.client: slot.caller for slot in self.opened().slots.values()},
                         {1: "gateway", 11: "bob", 12: "alice"})

    def test_a_client_stays_its_callers(self) -> None:
        book = self.opened()
        book.enroll({1: "gateway", 11: "alice"})
        order = Order(11, 1, "a", "take 1 5")
        book.intend([order])
        book.settle([Settled(order, "no 14 5 0")])
        for clients in ({1: "gateway", 11: "bob"}, {1: "gateway", 12: "alice"}):
            self.assertRaises(BadBook, book.enroll, clients)
        book.enroll({1: "gateway", 13: "carol"})  # alice is gone, and her client stays hers
        self.assertRaises(BadBook, book.enroll, {11: "dora"})

    def test_nothing_of_a_change_that_fails(self) -> None:
        """As on a full disk."""
        book = self.opened()
        book.enroll({11: "alice"})
        pages = book._row("PRAGMA page_count")[0]
        book._base.execute(f"PRAGMA max_page_count = {pages}")
        done: List[int] = []
        with self.assertRaises(books.sqlite3.OperationalError):
            for number in range(1, 2000):
                order = Order(11, number, f"k{number}", "fund 1 5")
                book.intend([order])
                book.settle([Settled(order, "ok")])
                done.append(number)
        self.assertEqual(book.slots[11].accepted, len(done))
        book.close()
        found = self.opened()
        self.assertEqual(found.slots[11].accepted, len(done))
        self.assertIsNotNone(found.reply(11, f"k{len(done)}"))
        self.assertIsNone(found.reply(11, f"k{len(done) + 1}"))


class Rotations(Desks):
    def over_full(self, archive: str) -> None:
        """A desk over a journal that takes 3 records, with this for the archiving."""
        program = self.stand_in(FULL_AT_3)
        self.again(program=program, archive=[sys.executable, "-c", f"import sys; {archive}", "archive"])
        self.wait_for_archive()

    def wait_for_archive(self) -> None:
        assert self.desk.keeper
        while self.desk.keeper.is_busy:
            self.desk._look_at_archive()

    def told(self, event: str) -> List[Any]:
        lines = [json.loads(line) for line in (self.folder / "log").read_text().splitlines()]
        return [line for line in lines if line["event"] == event]

    def test_behind_the_archive(self) -> None:
        self.over_full(f"open({str(self.folder / 'archived')!r}, 'a').write('x')")
        for index in range(3):
            self.assertEqual(self.ask(f"k{index} fund 1 1"), ["ok"])
        jobs = [self.job("alice", "k3 fund 1 1"), self.job("bob", "a fund 10 1")]
        self.desk.turn(jobs)
        self.assertEqual(self.answers.keys() & set(jobs), set())
        self.assertEqual(self.ask("? wallet 1"), ["3 0"])  # queries don't wait
        self.wait_for_archive()
        self.desk.turn(self.desk.queue.take(1))
        self.assertEqual([self.answers[job] for job in jobs], ["ok", "ok"])
        self.assertEqual([event["reply"] for event in self.told("rotated")], ["ok 2"])
        self.assertEqual((self.folder / "archived").read_text(), "xxx")  # at the start, in front of it, behind it
        self.assertEqual(self.accepted(), ["fund 1 1", "fund 10 1"])
        self.assertEqual(self.ask("k3 fund 1 1"), ["ok"])

    def test_an_archive_with_a_gap(self) -> None:
        self.over_full("print('there is a gap'); sys.exit(1)")
        for index in range(3):
            self.ask(f"k{index} fund 1 1")
        job = self.job("alice", "k3 fund 1 1")
        self.desk._next_archive = 0
        self.desk.turn([job])
        self.wait_for_archive()
        self.assertEqual(self.answers[job], "refused archive the journal is full, and was not rotated: there is a gap")
        self.assertEqual(self.ask("k4 fund 1 1", "? wallet 10")[0][:15], "refused archive")  # and no archiving at once
        self.assertEqual(self.told("rotated"), [])

    def test_an_archiving_that_can_not_be_begun(self) -> None:
        """The commands that wait for it are refused, and the others of their turn get their replies."""
        self.over_full("pass")
        for index in range(2):
            self.ask(f"k{index} fund 1 1")
        jobs = [self.job("bob", "a fund 10 1"), self.job("alice", "k3 fund 1 1")]
        with mock.patch("liq.gateway.keeper.subprocess.Popen", side_effect=BlockingIOError(11, "no more processes")):
            self.desk.turn(jobs)
            self.wait_for_archive()
        self.assertEqual(self.answers[jobs[0]], "ok")
        self.assertIn("was not rotated: it could not be begun: [Errno 11] no more processes", self.answers[jobs[1]])

    def test_what_waits_when_the_rotation_ends_all(self) -> None:
        """It is told so."""
        ends = "\n    if 'rotate' in line: sys.exit(5)\n"
        program = self.stand_in(FULL_AT_3.replace("for line in sys.stdin:\n", f"for line in sys.stdin:{ends}"))
        self.again(program=program, archive=[sys.executable, "-c", ""])
        self.wait_for_archive()
        for index in range(3):
            self.ask(f"k{index} fund 1 1")
        held, waits = self.job("alice", "k3 fund 1 1"), self.job("bob", "? wallet 10")
        self.desk.turn([held])
        assert self.desk.keeper and self.desk.keeper._process
        self.desk.keeper._process.wait()
        self.desk.put(waits)
        self.assertEqual(self.desk.work().status, 5)
        self.assertEqual([self.answers[job][:15] for job in (held, waits)], ["refused stopped"] * 2)

    def test_without_an_archive_it_is_liqs_answer(self) -> None:
        self.again(program=self.stand_in(FULL_AT_3))
        said = [self.ask(f"k{index} fund 1 1")[0] for index in range(4)]
        self.assertEqual(said, ["ok", "ok", "ok", "no 81 1000000"])
        self.assertEqual(refusals.read_refusal(said[-1].split(" ")).__class__, refusals.JournalFull)

    def test_when_it_is_asked_for(self) -> None:
        self.over_full("pass")
        self.ask("a fund 1 1")
        self.desk.rotate()
        self.desk._look_at_archive()
        self.wait_for_archive()
        self.assertEqual([event["reply"] for event in self.told("rotated")], ["ok 2"])


if __name__ == "__main__":
    unittest.main()
