"""The process: its ends, a line sent again, many queries at once, a full run, a full journal."""
import os
import re
import signal
from unittest import mock

from liq import Journal, MarketExists, NoJournal, Service, ends, refusals, service
from liq.journal import NoRegularFile
from liq.refusals import JournalFull

from .market import InFolder, OverProgram, document


class NewMarkets(OverProgram):
    def test_a_folder_without_a_journal_is_an_error(self) -> None:
        for name in ("missing", "empty"):
            self.assertRaises(NoJournal, Service, self.folder / name)
        (self.folder / "left.liq").write_bytes(bytes(100))
        self.assertRaises(NoJournal, Service, self.folder)
        self.assertFalse((self.folder / "right.liq").exists())

    def test_files_that_are_gone_are_not_begun_anew(self) -> None:
        market = self.service()
        market.client(1).fund(1, 5)
        market.kill()
        for file in (self.folder / "market").iterdir():
            file.unlink()
        self.assertRaises(NoJournal, market.start)

    def test_a_new_market_is_asked_for_where_one_is(self) -> None:
        """A script that makes a market and is run twice does not go on with the first one without a word."""
        folder = self.folder / "market"
        with Service(folder, create=True) as first:
            first.client(1).fund(1, 5)
        before = (folder / "left.liq").read_bytes()
        with self.assertRaises(MarketExists) as refused:
            Service(folder, create=True)
        self.assertEqual(refused.exception.folder, folder)
        self.assertIn('create="if missing"', str(refused.exception))
        self.assertEqual((folder / "left.liq").read_bytes(), before)
        with Service(folder, create="if missing") as second:
            self.assertEqual(second.client(1).next_number, 2)
        with Service(self.folder / "other", create="if missing") as third:
            self.assertEqual(third.client(1).next_number, 1)
        for create in ("yes", "", None, 1):
            self.assertRaises(ValueError, Service, self.folder / "more", create=create)
        self.assertFalse((self.folder / "more").exists())

    def test_a_created_market_goes_on_behind_a_crash(self) -> None:
        market = Service(self.folder / "market", create=True)
        self.addCleanup(market.kill)
        market.kill()
        market.start()
        market.client(1).fund(1, 5)
        market.kill()
        market.start()
        self.assertEqual(market.wallet(1).coll, 5)

    def test_a_pipe_in_the_place_of_a_file(self) -> None:
        self.bounded()
        os.mkfifo(self.folder / "left.liq")
        for create in (False, True, "if missing"):
            self.assertRaises(NoRegularFile, Service, self.folder, create=create)

    def test_a_market_goes_on(self) -> None:
        with Service(self.folder / "market", create=True) as first:
            first.client(1).fund(1, 5)
        with Service(self.folder / "market") as second:
            self.assertEqual(second.wallet(1).coll, 5)
            self.assertEqual(second.client(1).next_number, 2)


class Ends(OverProgram):
    def test_a_line_that_is_no_request(self) -> None:
        market = self.service()
        market.client(1).fund(1, 5)
        with self.assertRaises(ends.BadLine) as end:
            market.ask("1 2 fund 1 05")
        self.assertEqual((end.exception.status, end.exception.last, end.exception.number), (2, "bad line 3", 3))
        self.assertEqual(end.exception.pending, "1 2 fund 1 05")
        self.assertRaises(RuntimeError, market.ask, "? pools")
        market.start()
        self.assertEqual(market.wallet(1).coll, 5)

    def test_a_folder_that_another_run_holds(self) -> None:
        self.service().client(1).fund(1, 5)
        with self.assertRaises(ends.DiskFault) as end:
            self.service(create=False).ask("? wallet 1")
        self.assertEqual(end.exception.status, 5)

    def test_a_record_that_was_turned(self) -> None:
        with self.service() as market:
            market.client(1).fund(1, 5)
        file = self.folder / "market/left.liq"
        data = bytearray(file.read_bytes())
        data[-40] ^= 1
        file.write_bytes(data)
        with self.assertRaises(ends.Damaged) as end:
            self.service().ask("? wallet 1")
        self.assertEqual((end.exception.last, end.exception.number), ("damaged left 1", 1))

    def test_two_lines_are_not_sent_as_one(self) -> None:
        market = self.service()
        for line in ("? pools\n? pools", "? wallet 1\n", "? wallet \u0661"):
            self.assertRaises(ValueError, market.ask, line)
            self.assertRaises(ValueError, market.ask_many, ["? pools", line])
        self.assertEqual(len(market.ask_many(["? pools", "? wallet 1"])), 2)
        for ask in (lambda: market.ask("? pools\r"), lambda: market.ask_many(["? pools\r"])):
            with self.assertRaises(ends.BadLine):
                ask()
            market.start()


class StandIns(InFolder):
    """What a program rarely does, by one that does it."""

    def end_of(self, text: str) -> ends.End:
        with self.assertRaises(ends.End) as end:
            Service(self.folder, self.stand_in(text), create=True).ask("1 1 fund 1 5")
        self.assertEqual(end.exception.pending, "1 1 fund 1 5")
        return end.exception

    def test_each_status_is_its_own_exception(self) -> None:
        for status, kind, last in (
            (1, ends.Usage, "usage: liq"), (2, ends.BadLine, "bad line 1"), (3, ends.ReadFault, "read fault"),
            (4, ends.WriteFault, ""), (5, ends.DiskFault, "disk fault"), (6, ends.Damaged, "damaged left 2"),
            (7, ends.NoMemory, "no memory"), (8, ends.Limit, "limit 5"), (9, ends.Rotated, "rotated 2"),
        ):
            end = self.end_of(f"import sys; sys.stdin.readline(); print({last!r}); sys.exit({status})")
            self.assertEqual((type(end), end.status, end.last), (kind, status, last))

    def test_no_memory_is_no_refusal(self) -> None:
        self.assertIs(type(self.end_of("print('no memory'); import sys; sys.exit(7)")), ends.NoMemory)

    def test_a_reply_that_is_cut_off_is_none(self) -> None:
        end = self.end_of("import sys; sys.stdin.readline(); sys.stdout.write('ok 42'); sys.exit(4)")
        self.assertEqual((type(end), end.last), (ends.WriteFault, ""))

    def test_a_signal(self) -> None:
        self.assertIs(type(self.end_of("import os; os.kill(os.getpid(), 9)")), ends.Killed)
        self.assertIs(type(self.end_of("import sys; sys.exit(143)")), ends.Killed)

    def test_statuses_are_those_of_the_page(self) -> None:
        page = document("OPERATING.md").partition("## Statuses")[2].partition("\n## ")[0]
        told = {int(status) for status in re.findall(r"^### (\d+)", page, re.MULTILINE)} - {0, 130}
        self.assertEqual(told, set(ends.BY_STATUS))

    def test_a_full_journal_is_rotated_where_that_is_asked_for(self) -> None:
        full = self.stand_in("""
import sys
full = True
for line in sys.stdin:
    words = line.split()
    full = full and words[2:] != ["rotate"]
    reply = "1" if words[0] == "?" else "no 81 1000000" if full else "ok " + words[1]
    print("ok 2" if words[2:] == ["rotate"] else reply, flush=True)
""")
        with Service(self.folder, full, create=True) as market:
            self.assertRaises(JournalFull, market.client(1).advance, 1)
            client = market.client(1, rotate_when_full=True)
            self.assertEqual(client.advance(1).minute, 2)
            self.assertEqual(client.next_number, 3)


class Again(OverProgram):
    """A line whose reply was lost is sent once more, and counts once."""

    def test_killed_before_the_line_came(self) -> None:
        market = self.service()
        client = market.client(1)
        os.kill(market.pid, signal.SIGKILL)
        self.check_resent(market, client)

    def test_killed_behind_the_reply(self) -> None:
        market = self.service()
        client = market.client(1)

        def lose(until=None):
            market._poll.poll()
            os.kill(market.pid, signal.SIGKILL)
            os.read(market._out, 1000)
            raise market._end()

        with mock.patch.object(market, "_read", lose):
            self.check_lost(market, client)
        self.check_sent_again(market, client)

    def check_resent(self, market, client) -> None:
        self.check_lost(market, client)
        self.check_sent_again(market, client)

    def check_lost(self, market, client) -> None:
        with self.assertRaises(ends.Killed) as end:
            client.advance(50)
        self.assertEqual(end.exception.pending, "1 1 advance 50")

    def check_sent_again(self, market, client) -> None:
        market.start()
        self.assertRaises(RuntimeError, client.advance, 50)
        self.assertEqual(client.resend().minute, 50)
        self.assertEqual((client.next_number, market.system().minute), (2, 50))
        self.assertRaises(RuntimeError, client.resend)

    def test_every_answered_command_outlasts_a_kill(self) -> None:
        market = self.service()
        client = market.client(1)
        for _ in range(100):
            client.fund(1, 1)
        market.kill()
        market.start()
        self.assertEqual(market.wallet(1).coll, 100)


class Many(OverProgram):
    def test_no_deadlock_of_full_pipes(self) -> None:
        def late(*_):
            raise TimeoutError("both sides wait")

        before = signal.signal(signal.SIGALRM, late)
        self.addCleanup(signal.signal, signal.SIGALRM, before)
        self.addCleanup(signal.alarm, 0)
        signal.alarm(30)
        market = self.service()
        replies = market.ask_many(["? system"] * 20_000)
        self.assertEqual((len(replies), len(replies[-1])), (20_000, 10))

    def test_replies_keep_their_order(self) -> None:
        market = self.service()
        client = market.client(1)
        for account in range(50):
            client.fund(account, account + 1)
        self.assertEqual([wallet.coll for wallet in market.wallets(range(50))], list(range(1, 51)))

    def test_what_is_sent_together_and_left(self) -> None:
        """A run that may have half a line is not asked any more."""
        market = self.service()

        def take(_: object) -> None:
            raise KeyboardInterrupt

        lines = [f"{client} 1 fund 1 1" for client in range(2000)]
        # Else all replies may be there when they are first read, and none is owed then.
        with mock.patch.object(service, "PIECE_BYTES", 300):
            self.assertRaises(KeyboardInterrupt, market.ask_together, lines, take)
        self.assertEqual((market.pid, market.pending is None), (None, False))
        market.start()
        replies: "list[str]" = []
        market.ask_together(lines, replies.extend)
        self.assertEqual((set(replies), market.wallet(1).coll), ({"ok"}, 2000))

    def test_commands_are_not_taken(self) -> None:
        self.assertRaises(ValueError, self.service().ask_many, ["? pools", "1 1 fund 1 5"])

    def test_a_run_that_is_full_is_followed_by_another(self) -> None:
        with mock.patch.object(service, "LINES_OF_A_RUN", 1000):
            market = self.service()
            client = market.client(1)
            first = market.pid
            for _ in range(1500):
                client.fund(1, 1)
            self.assertNotEqual(market.pid, first)
            self.assertEqual(len(market.ask_many(["? pools"] * 2500)), 2500)
            self.assertEqual(market.wallet(1).coll, 1500)
        self.assertIn(f"| lines of one run | {service.LINES_OF_A_RUN:,},", document("OPERATING.md"))

    def test_a_rotation(self) -> None:
        with self.service() as market:
            client = market.client(1)
            client.fund(1, 5)
            self.assertEqual(client.rotate().generation, 2)
            self.assertRaises(refusals.NoTrove, client.close, 1)
        self.assertEqual(Journal(self.folder / "market").current.generation, 2)
