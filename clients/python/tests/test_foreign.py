"""Folders that somebody else made: the reader, the audit and the page end within bounds, say why, and leave nothing."""
import contextlib
import io
import os
import signal
import subprocess
import sys
import time
import unittest
from fractions import Fraction
from pathlib import Path
from typing import Dict, Optional, Sequence, Tuple
from unittest import mock

from liq import Journal, journal, page, recheck, scratch, statement
from liq.ends import NoJournal, TooMuch
from liq.journal import Checkpoint, DamagedFile, DepositRow, KeptReply
from liq.shares import PlainLedger, Share

from . import foreign
from .market import TOP, InFolder, OverProgram, status_of

LATE = 60  # seconds, far more than any of these takes
TOOLS = ("recheck", "page")


def environment(program: Optional[Path] = None) -> Dict[str, str]:
    """That of a tool, over a program of its own where one is given."""
    chosen = {"LIQ_PROGRAM": str(program)} if program else {}
    return {**os.environ, "PYTHONPATH": str(TOP / "clients/python"), **chosen}


def run(tool: str, *words: str) -> Tuple[int, str]:
    """The status of a tool, and what it says in place of a page or rows. It is called and not started, which takes a
    tenth of a second each time."""
    main = {"recheck": recheck.main, "page": page.main, "statement": statement.main}[tool]
    with contextlib.redirect_stdout(io.StringIO()) as told, contextlib.redirect_stderr(io.StringIO()) as said:
        status = status_of(main, *words)
    return status, said.getvalue() or told.getvalue()


def run_within(tool: str, folder: str) -> Tuple[int, str]:
    """The same of a folder, which may not take it long."""
    return run(tool, "--seconds", str(LATE), folder)


def run_started(tool: str, *words: str, program: Path) -> Tuple[int, str]:
    """The status of a tool that is started over a program of its own, and what it says."""
    ran = subprocess.run(
        [sys.executable, "-m", f"liq.{tool}", *words], env=environment(program), stdout=subprocess.PIPE,
        stderr=subprocess.PIPE, timeout=LATE)
    return ran.returncode, (ran.stderr or ran.stdout).decode()


class Small(OverProgram):
    """A market of three troves and two deposits, rotated once, and others made of its checkpoint."""

    def setUp(self) -> None:
        super().setUp()
        self.bounded(2 * LATE)
        with self.service("small") as market:
            client = market.client(1)
            for account in (1, 2, 3):
                client.fund(account, 10**10)
                client.open(account, 10**10, (2 + account) * 10**9)
            client.provide(1, 10**9)
            client.provide(2, 10**9)
            client.rotate()
        found = Journal(self.folder / "small").current.checkpoint
        assert found
        self.small = found

    def made(self, name: str, checkpoint: bytes, lines: Sequence[str] = (), generation: int = 2) -> str:
        foreign.write(self.folder / name, generation, checkpoint, lines)
        return str(self.folder / name)

    def test_the_forger_writes_what_the_program_does(self) -> None:
        disk = Journal(self.folder / "small").current
        self.assertEqual(foreign.header(2, foreign.bytes_of(self.small)), disk.data[: disk.begin])

    def test_a_scale_of_two_to_the_24th(self) -> None:
        """It is sound, as the rules bound a scale by all records that there may have been. No step is made for each."""
        folder = self.made("scale", foreign.bytes_of(self.small._replace(scale=2**24)))
        status, said = run_within("recheck", folder)
        self.assertEqual((status, said.splitlines()[1].split()), (0, ["1", "0", "0.000", "-", "0", "0.000", "-"]))
        self.assertEqual(run_within("page", folder)[0], 0)
        self.assertEqual(run_within("statement", folder)[0], 0)

    def test_a_count_that_no_program_took(self) -> None:
        lines = ["1 1 fund 1 5", f"1 2 liquidate_lowest 1 {2**34}"]
        folder = self.made("count", b"", lines, generation=1)
        self.assertEqual(run_within("recheck", folder), (1, "recheck refuses: liq ended with 6, damaged left 2\n"))
        self.assertEqual(run_within("page", folder), (1, "page: liq ended with 6, damaged left 2\n"))
        said = run_within("statement", folder)[1]
        self.assertIn("left.liq is damaged at 2: the rules refuse it, no 12 17179869184 64: ", said)
        (self.folder / "again").mkdir()
        with self.assertRaises(recheck.Differs) as differs:
            recheck.Replay(Journal(folder).chain, self.folder / "again")
        self.assertIn("a count is from 1 to 64", str(differs.exception))

    def test_devices_pipes_and_holes(self) -> None:
        size = (self.folder / "small/right.liq").stat().st_size
        for name, make, said in (
            ("device", lambda path: os.symlink("/dev/zero", path), "left.liq is no regular file"),
            ("pipe", os.mkfifo, "left.liq is no regular file"),
            ("hole", lambda path: os.truncate(path.with_name("right.liq"), 2**42), "has more than 268,435,456 bytes"),
        ):
            folder = Path(self.made(name, foreign.bytes_of(self.small)))
            make(folder / "left.liq")
            for tool in (*TOOLS, "statement"):
                status, told = run_within(tool, str(folder))
                self.assertEqual((status, said in told), (1, True), told)
        self.assertEqual((self.folder / "small/right.liq").stat().st_size, size)

    def test_what_could_not_be_divided_by(self) -> None:
        trove, deposit = self.small.troves[1]._replace(stake=0), self.small.deposits[1]._replace(p=0)
        for name, made in (
            ("stake", self.small._replace(troves={1: trove})), ("product", self.small._replace(deposits={1: deposit})),
        ):
            folder = self.made(name, foreign.bytes_of(made))
            with self.assertRaises(DamagedFile) as damaged:
                Journal(folder)
            self.assertIn(f"a {name} is 0", str(damaged.exception))
            self.assertEqual([run_within(tool, folder)[0] for tool in (*TOOLS, "statement")], [1, 1, 1])

    def test_no_client_is_left_for_a_rotation(self) -> None:
        with self.assertRaises(recheck.Differs) as differs:
            recheck.unused_client(range(2**20))
        self.assertIn("every client is in use", str(differs.exception))
        last = self.small._replace(generation=2**36, clients={1: KeptReply(1, "price", (0,) * 6)})
        folder = self.made("last", foreign.bytes_of(last), generation=2**36)
        self.assertEqual(run_within("recheck", folder)[1][:52], "recheck refuses: no checkpoint can be written: no 12")

    def test_a_program_whose_replies_cannot_be(self) -> None:
        """A full journal that is not rotated, and an offset of more than the pool has, end the replay at once."""
        foreign.write(self.folder / "two", 1, b"", ["1 1 liquidate 1 2"])
        chain = Journal(self.folder / "two").chain
        for reply, said in (("no 81 1000000", "journal is full: no 81 1000000"), ("ok 1 5 1 0 0 0", "takes over 5")):
            program = self.stand_in(f"import sys\nfor line in sys.stdin: print({reply!r}, flush=True)")
            again = self.folder / said[:4]
            with self.assertRaises(recheck.Differs) as differs:
                recheck.Replay(chain, again, program)
            self.assertIn(said, str(differs.exception))

    def test_exact_shares_take_no_more_than_stated(self) -> None:
        with self.service("offset") as market:
            client = market.client(1)
            for account in (1, 2, 3):
                client.fund(account, 10**10)
                client.open(account, 10**10, account * 2 * 10**9)
                client.provide(account, account * 10**9 + 5 * 10**8)
            client.price(650 * 10**6)
            client.liquidate(9, 3)
            client.price(440 * 10**6)
            client.liquidate(9, 2)
        for name, said in (
            ("SHARES_BYTES_MOST", "the exact shares take more than 1 bytes"),
            ("SHARES_PLACES_MOST", "the exact shares have more than 1 binary places"),
        ):
            for tool in (recheck.recheck, statement.statement):
                here = sys.modules[tool.__module__]
                with mock.patch.object(here, name, 1), self.assertRaises(TooMuch) as refused:
                    tool(self.folder / "offset")
                self.assertEqual(str(refused.exception), said)


class Tables(InFolder):
    """Counts in a file are not believed."""

    def setUp(self) -> None:
        super().setUp()
        self.bounded()

    def empty(self) -> Checkpoint:
        return Checkpoint(2, *[0] * 25, {}, {}, {}, {}, {}, {})

    def read(self, data: bytes, generation: int = 2) -> None:
        foreign.write(self.folder, generation, data)
        Journal(self.folder)

    def test_more_rows_than_bytes(self) -> None:
        whole = foreign.bytes_of(self.empty())
        for table in range(6):
            place = len(whole) - 8 * (6 - table)
            with self.assertRaises(DamagedFile) as damaged:
                self.read(whole[:place] + b"\xff" * 8 + whole[place + 8 :])
            self.assertIn("bytes are missing", damaged.exception.why)

    def test_more_rows_than_are_read(self) -> None:
        whole = foreign.bytes_of(self.empty())
        count = 2**20 + 1
        with self.assertRaises(TooMuch) as refused:
            self.read(whole[:-24] + count.to_bytes(8, "big") + bytes(32 * count) + whole[-16:])
        self.assertEqual((refused.exception.most, refused.exception.unit), (2**20, "rows"))

    def test_a_checkpoint_that_is_longer_than_its_file(self) -> None:
        header = foreign.header(2, b"")
        (self.folder / "right.liq").write_bytes(header[:17] + (2**36).to_bytes(8, "big") + header[25:])
        with self.assertRaises(DamagedFile) as damaged:
            Journal(self.folder)
        self.assertEqual(damaged.exception.why, "bytes are missing")

    def test_more_records_than_a_generation_has(self) -> None:
        with mock.patch.object(journal, "RECORDS_MOST", 2):
            foreign.write(self.folder, 1, b"", ["1 1 fund 1 5", "1 2 fund 1 5"])
            self.assertEqual(len(Journal(self.folder).lines), 2)
            foreign.write(self.folder, 1, b"", ["1 1 fund 1 5", "1 2 fund 1 5", "1 3 fund 1 5"])
            with self.assertRaises(DamagedFile) as damaged:
                Journal(self.folder)
            self.assertEqual(damaged.exception.record, 3)


class SharesOfACheckpoint(unittest.TestCase):
    def test_what_many_rises_have_left_is_nothing(self) -> None:
        start = Checkpoint(2, *[0] * 25, {}, {}, {}, {}, {}, {})
        start = start._replace(scale=2**60, p=10**18, sum=7 * 10**18)
        deposit = DepositRow(10**9, 10**18, 0, 2**60 - 2, 0)
        self.assertEqual(recheck.share_in(start, deposit), Share(Fraction(1, 10**9), Fraction(7, 10**9)))
        self.assertEqual(recheck.share_in(start, deposit._replace(scale=0)), Share(Fraction(0), Fraction(0)))
        grown = start._replace(finished={(0, 0): 3 * 10**18, (0, 1): 10**18, (0, 40): 10**18, (1, 0): 10**18})
        gain = 3 * 10**9 + 1
        self.assertEqual(recheck.share_in(grown, deposit._replace(scale=0)), Share(Fraction(0), Fraction(gain)))

    def test_many_depositors_with_words_of_their_own(self) -> None:
        """No common denominator is made of theirs: that of 3,000 would have 180,000 binary places for each."""
        ledger = PlainLedger()
        for account in range(3000):
            ledger.begin(account, Share(Fraction(1, 2**59 + 2 * account + 1), Fraction(account, 2**60 + 1)))
        ledger.offset(debt=1, coll=1, total=2)
        self.assertLess(max(bits_of(ledger, account) for account in ledger.accounts), 200)
        half = Fraction(1, 2 * (2**59 + 5))
        self.assertEqual(ledger.share(2), Share(half, half + Fraction(2, 2**60 + 1)))


def bits_of(ledger: PlainLedger, account: int) -> int:
    """How many binary places the numbers of a share have."""
    return max(max(part.numerator, part.denominator).bit_length() for part in ledger.share(account))


WAITS = """
import os, sys, time
with open({told!r}, "w") as file:
    file.write(f"{{os.getpid()}} {{os.getcwd()}}")
time.sleep(1000)
"""


class Stopped(InFolder):
    """A run that a signal or the bound on time ends leaves no folder and no program behind."""

    def setUp(self) -> None:
        super().setUp()
        foreign.write(self.folder / "market", 1, b"", ["1 1 fund 1 5"])
        self.told = self.folder / "told"
        self.waits = self.stand_in(WAITS.format(told=str(self.told)))

    def started(self, tool: str) -> "subprocess.Popen[bytes]":
        """A tool whose program waits for ever."""
        process = subprocess.Popen(
            [sys.executable, "-m", f"liq.{tool}", str(self.folder / "market")], stdout=subprocess.DEVNULL,
            stderr=subprocess.PIPE, env=environment(self.waits))
        self.addCleanup(process.kill)
        with scratch.bounded(LATE):
            while not self.told.exists() or len(self.told.read_text().split(" ")) < 2:
                time.sleep(0.01)
        return process

    def check_gone(self) -> None:
        pid, where = self.told.read_text().split(" ")
        self.told.unlink()
        self.assertFalse(Path(where).exists(), where)
        with self.assertRaises(ProcessLookupError):
            os.kill(int(pid), 0)

    def test_by_signals(self) -> None:
        for tool in TOOLS:
            for number in (signal.SIGTERM, signal.SIGHUP, signal.SIGINT):
                with self.subTest(tool=tool, signal=number):
                    process = self.started(tool)
                    process.send_signal(number)
                    _, said = process.communicate(timeout=LATE)
                    self.assertEqual((process.returncode, said), (128 + number, b""))
                    self.check_gone()

    def test_by_the_bound_on_time(self) -> None:
        for tool in TOOLS:
            for seconds in 1, 5, 25:
                words = "--seconds", str(seconds), str(self.folder / "market")
                status, said = run_started(tool, *words, program=self.waits)
                self.assertEqual((status, said.endswith(f"it takes more than {seconds} seconds\n")), (1, True), said)
                if self.told.exists():  # else a slow machine had not begun the program yet
                    break
            self.check_gone()

    def test_words_that_are_not_understood(self) -> None:
        for words in ([], ["--seconds", "5"], ["--seconds", "0", "x"], ["--seconds", "1.5", "x"], ["x", "y"]):
            for tool in TOOLS:
                status, said = run(tool, *words)
                self.assertEqual((status, said[:7]), (2, "usage: "))

    def test_a_scratch_folder_goes_whatever_ends_its_use(self) -> None:
        for end in (KeyboardInterrupt, NoJournal("x"), SystemExit(143)):
            with self.assertRaises(BaseException), scratch.scratch(self.folder, "liq-test-scratch") as room:
                (room / "left.liq").write_bytes(b"1")
                raise end
            self.assertFalse(room.exists())
