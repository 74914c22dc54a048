"""The gateway as a process: who speaks, the table, lines, connections, signals, two gateways, counts and the log."""
import contextlib
import fcntl
import json
import os
import shutil
import signal
import socket
import subprocess
import sys
import threading
import time
import unittest
from pathlib import Path
from typing import List

from liq import Journal, TimedOut
from liq.gateway.caller import Caller, Gone
from liq.gateway.lines import Refused, read_line
from liq.gateway.log import Counts, Log
from liq.gateway.table import BadTable, parse_table, read_table
from liq.own import NotOwn
from liq.service import Service

from .gateways import ME, SECONDS, TABLE, Gateways
from .market import InFolder

ALICE = "[gateway]\nclient = 1\n[alice]\nuser = 1001\nclient = 11\n"


class Tables(InFolder):
    def test_what_a_caller_may(self) -> None:
        table = parse_table(ALICE + "accounts = 5 1-3 4\nverbs = take send liquidate wallet next_number pools\n")
        alice = table.callers["alice"]
        self.assertEqual((alice.user, alice.client, alice.connections), (1001, 11, 8))
        self.assertEqual(alice.accounts, ((1,), (5,)))
        for line in ("a take 1 5", "a send 5 9 1", "a liquidate 2 77", "? wallet 3", "? next_number 11", "? pools"):
            alice.check(read_line(line.encode()))
        for line, name in (
            ("a take 6 5", "account"), ("a send 6 1 1", "account"), ("a liquidate 77 2", "account"),
            ("? wallet 9", "account"), ("a fund 1 5", "verb"), ("a rotate", "verb"), ("? trove 1", "verb"),
            ("? next_number 1", "client"),
        ):
            with self.assertRaises(Refused) as refused:
                alice.check(read_line(line.encode()))
            self.assertEqual(refused.exception.name, name, line)

    def test_all_accounts(self) -> None:
        alice = parse_table(ALICE + "accounts = *\nsees = 7\nverbs = take wallet\n").callers["alice"]
        alice.check(read_line(b"a take 1048575 5"))
        alice.check(read_line(b"? wallet 7"))
        self.assertRaises(Refused, alice.check, read_line(b"? wallet 8"))
        self.assertRaises(Refused, alice.check, read_line(b"a take 1048576 5"))

    def test_without_accounts_and_verbs_nothing(self) -> None:
        alice = parse_table(ALICE).callers["alice"]
        for line in (b"a price 100000000", b"? pools", b"a take 0 1"):
            self.assertRaises(Refused, alice.check, read_line(line))

    def test_what_is_no_table(self) -> None:
        for text, why in (
            ("", "no [gateway]"),
            ("[gateway]\n", "has no client"),
            ("[gateway]\nclient = 1\n[alice]\nclient = 2\n", "nobody could speak"),
            (ALICE + "[bob]\nuser = 1002\nclient = 11\n", "client 11 is bob's and alice's"),
            (ALICE + "[bob]\nuser = 1001\nclient = 12\n", "user 1001 is bob's and alice's"),
            (ALICE + "[bob]\nuser = 1002\nclient = 1\n", "client 1 is bob's and gateway's"),
            (ALICE + "relayed = yes\n", "there is no relay"),
            (ALICE + "relayed = maybe\n", "yes or no"),
            (ALICE + "acounts = 1\n", "'acounts'"),
            (ALICE + "accounts = 1-\n", "no account"), (ALICE + "accounts = 3-1\n", "no account"),
            (ALICE + "accounts = 1048576\n", "no account"), (ALICE + "accounts = 1,2\n", "no account"),
            (ALICE + "verbs = steal\n", "'steal'"), (ALICE + "verbs = rotate\n", "rotate is the gateway's own"),
            (ALICE + "verbs = take\nverbs = fund\n", "verbs"),
            (ALICE + "connections = 0\n", "connections"),
            (ALICE.replace("alice", "Alice"), "'Alice'"),
            (ALICE.replace("1001", "nobody-of-this-name"), "nobody-of-this-name"),
            (ALICE.replace("1001", "65534"), "can't name"), (ALICE.replace("1001", "ali\0ce"), "login name"),
            (ALICE.replace("11", "1048576"), "client"),
            ("[DEFAULT]\nverbs = take\n" + ALICE, "[DEFAULT]"),
            ("client = 1\n" + ALICE, "no section"),
        ):
            with self.assertRaises(BadTable, msg=text) as refused:
                parse_table(text)
            self.assertIn(why, str(refused.exception))

    def test_a_table_that_others_may_write(self) -> None:
        path = self.folder / "table"
        path.write_text(TABLE)
        for mode in (0o602, 0o620, 0o666):
            path.chmod(mode)
            self.assertRaises(BadTable, read_table, path)
        path.chmod(0o644)
        self.assertEqual(sorted(read_table(path).callers), ["alice", "bob"])
        if ME == 0:
            os.chown(path, 1234, 0)
            self.assertRaises(BadTable, read_table, path)


class Lines(unittest.TestCase):
    def test_lines(self) -> None:
        line = read_line(b"order-17.a:b_c open 1 5 6 7 - 9")
        self.assertEqual((line.key, line.verb, line.accounts, line.is_query), ("order-17.a:b_c", "open", (1,), False))
        self.assertEqual(line.call, "open 1 5 6 7 - 9")
        self.assertEqual(read_line(b"? wallet 5").call, "? wallet 5")
        self.assertIsNone(read_line(b"- fund 1 5").key)

    def test_what_is_no_line(self) -> None:
        for data in (
            b"", b" ", b"a", b"a ", b"a fund", b"a fund 1", b"a fund 1 5 ", b"a  fund 1 5", b" a fund 1 5",
            b"a fund 1 05",
            b"a fund 1 -5", b"a fund 1 5\r", b"a\tfund 1 5", b"a FUND 1 5", b"a fund 4294967296 5", b"a fund 1 5 5",
            b"a fund 1 18446744073709551616", b"1 1 fund 1 5", b"?", b"? ", b"? wallet", b"? wallet 1 2",
            b"a ? wallet 1",
            b"\xff fund 1 5", b"a fund 1 \xd9\xa1", b"a fund 1 5\x00", b"a/b fund 1 5", b"-a fund 1 5", b"-- fund 1 5",
            b"k" * 65 + b" fund 1 5",
        ):
            with self.assertRaises(Refused, msg=data) as refused:
                read_line(data)
            self.assertEqual(refused.exception.name, "bad_line", data)
        with self.assertRaises(Refused) as refused:
            read_line(b"a fund 1 5" + b" " * 300)
        self.assertEqual(refused.exception.name, "long_line")


class Speaking(Gateways):
    """Who speaks."""

    def test_the_relay_says_for_whom(self) -> None:
        self.start()
        self.assertEqual(self.caller("alice").ask("a fund 1 5"), "ok")
        self.assertEqual(self.caller("bob").ask("a fund 1 5"), "refused account 1 is none of your accounts")
        for first in ("as carol", "as", "a fund 1 5", "as alice bob", "as gateway", ""):
            caller = Caller(self.socket)
            self.addCleanup(caller.close)
            self.assertTrue(caller.ask(first).startswith("refused caller"), first)
            self.assertTrue(self.is_gone(caller))

    @unittest.skipUnless(ME == 0, "it takes root to be somebody else")
    def test_users(self) -> None:
        self.folder.chmod(0o755)
        table = TABLE.replace(f"relay = {ME}", "relay = 2000")
        self.write_table(table.replace("[bob]\nrelayed = yes", "[bob]\nuser = 2001"))
        self.start("--mode", "666")
        for user, name, line, wanted in (
            (2001, None, "a fund 10 5", "ok"), (2000, "alice", "a fund 1 5", "ok"),
            (2000, "bob", "", "refused caller"), (2001, "alice", "? wallet 10", "refused caller"),
            (2002, None, "", "refused caller"), (0, None, "", "refused caller"),
        ):
            os.seteuid(user)
            try:
                caller = Caller(self.socket, name)
            finally:
                os.seteuid(0)
            with caller:
                with contextlib.suppress(Gone):
                    caller.send(line)
                self.assertEqual(caller.read()[:len(wanted)], wanted, (user, name))

    def test_a_connection_speaks_as_one_caller(self) -> None:
        """Who asks for another name learns so, before a line is carried out for whom it is not meant."""
        self.start()
        for name in ("bob", "alice", "carol"):
            alice = self.caller("alice")
            self.assertTrue(alice.ask(f"as {name}").startswith("refused caller"), name)
            self.assertTrue(self.is_gone(alice))
        self.assertTrue(self.caller("alice").ask("as fund 1 5").startswith("ok"))

    def test_the_forced_command(self) -> None:
        self.start()
        words = ["python3", "-m", "liq.gateway.speak", str(self.socket), "alice"]
        lines = b"a fund 1 5\n? wallet 1\nb fund 10 5"
        ran = subprocess.run(words, input=lines, env=self.environment, stdout=subprocess.PIPE)
        self.assertEqual(
            ran.stdout.decode().splitlines(),
            ["ok", "5 0", "refused half_line it has no line end, so it may be cut: nothing was passed on"],
        )


class Connections(Gateways):
    def test_a_bad_line_ends_nothing(self) -> None:
        self.start()
        alice, bob = self.caller("alice"), self.caller("bob")
        self.assertEqual(bob.ask("a fund 10 5"), "ok")
        for line in ("no request", "", "x" * 300, "a take 10 5"):
            self.assertTrue(alice.ask(line).startswith("refused "), line)
        alice.socket.sendall(b"\xff\x00\n" + b"y" * 100_000 + b"\nb fund 1 5\n")
        self.assertEqual([alice.read().split(" ")[1] for _ in range(2)], ["bad_line", "long_line"])
        self.assertEqual(alice.read(), "ok")
        self.assertEqual(bob.ask("b fund 10 5"), "ok")

    def test_many_lines_at_once(self) -> None:
        self.start()
        alice = self.caller()
        alice.socket.sendall(b"".join(b"k%d fund 1 1\n" % index for index in range(500)) + b"? wallet 1\n")
        self.assertEqual([alice.read() for _ in range(500)], ["ok"] * 500)
        self.assertEqual(alice.read(), "500 0")

    def test_a_key_on_two_connections_at_once(self) -> None:
        self.start()
        both = self.caller(), self.caller()
        for index in range(100):
            for alice in both:
                alice.send(f"k{index} fund 1 1")
        self.assertEqual([alice.read() for alice in both for _ in range(100)], ["ok"] * 200)
        self.assertEqual(both[0].ask("? wallet 1"), "100 0")

    def test_a_half_line_is_not_carried_out(self) -> None:
        self.start()
        alice = self.caller()
        alice.socket.sendall(b"a fund 1 1")
        alice.socket.shutdown(socket.SHUT_WR)
        self.assertTrue(alice.read().startswith("refused half_line"))
        self.assertEqual(self.caller().ask("? wallet 1"), "0 0")

    def test_the_idle(self) -> None:
        """A letter now and then is no line; a line is."""
        self.start("--idle", "2")
        slow, silent, busy = self.caller(), self.caller(), self.caller()
        for _ in range(30):
            self.assertEqual(busy.ask("? wallet 1"), "0 0")
            try:
                slow.socket.send(b"x")
            except OSError:
                break
            time.sleep(0.1)
        for caller in (slow, silent):
            self.assertTrue(caller.read().startswith("refused idle"))
            self.assertTrue(self.is_gone(caller))
        self.assertEqual(busy.ask("? wallet 1"), "0 0")

    def test_replies_that_nobody_takes(self) -> None:
        self.start("--idle", "1")
        alice, bob = self.caller(), self.caller("bob")
        alice.socket.setblocking(False)
        began = time.monotonic()
        while time.monotonic() < began + 30:
            try:
                alice.socket.send(b"? pools\n" * 500)
            except BlockingIOError:
                self.assertEqual(bob.ask("? wallet 10"), "0 0")
                time.sleep(0.05)
            except OSError:
                break
        else:
            self.fail("it was never ended")

    def test_as_many_as_the_table_says(self) -> None:
        self.start()
        callers = [self.caller("bob") for _ in range(2)]
        self.assertEqual([caller.ask("? wallet 10") for caller in callers], ["0 0"] * 2)
        third = self.caller("bob")
        self.assertTrue(third.read().startswith("refused connections"))
        self.assertTrue(self.is_gone(third))
        callers[0].close()
        for _ in range(50):
            try:
                self.assertEqual(self.caller("bob").ask("? wallet 10"), "0 0")
                return
            except (Gone, AssertionError):
                time.sleep(0.05)
        self.fail("a place that was left is not given again")


    def test_more_at_once_than_are_taken(self) -> None:
        """They wait for their turn."""
        listening = socket.socket(socket.AF_UNIX, socket.SOCK_STREAM)
        self.addCleanup(listening.close)
        listening.bind(str(self.socket))
        listening.listen(0)
        first = Caller(self.socket)
        self.addCleanup(first.close)
        self.assertRaises(TimedOut, Caller, self.socket, None, 0.05)

        def take() -> None:
            time.sleep(0.1)
            listening.accept()[0].close()

        taking = threading.Thread(target=take)
        taking.start()
        self.addCleanup(taking.join)
        Caller(self.socket, None, SECONDS).close()


class Processes(Gateways):
    def test_the_end_in_good_order(self) -> None:
        for number in (signal.SIGTERM, signal.SIGINT):
            gateway = self.start()
            alice = self.caller()
            alice.ask("? wallet 1")
            gateway.send_signal(number)
            self.assertEqual(gateway.wait(30), 0)
            self.assertTrue(alice.read().startswith("refused stopped"))
            self.assertFalse(self.socket.exists())

    def test_two_gateways(self) -> None:
        self.start()
        self.assertEqual(self.ends("--socket", str(self.folder / "other")), 1)
        self.assertIn("another gateway holds it", self.said())
        self.assertEqual(self.ends("--book", str(self.folder / "other.book")), 1)
        self.assertIn("another process listens there", self.said())
        self.assertEqual(self.caller().ask("a fund 1 5"), "ok")

    def test_a_log_that_nobody_reads(self) -> None:
        """A full pipe or socket stops nobody, and what is not written is counted, and told once it is read."""
        reading, writing = os.pipe()
        fcntl.fcntl(writing, fcntl.F_SETPIPE_SZ, 4096)
        ours, theirs = socket.socketpair()
        for reader, log in ((reading, writing), (ours.detach(), theirs.detach())):
            self.addCleanup(os.close, reader)
            self.addCleanup(os.close, log)
            with self.subTest(log):
                self.check_log(reader, log)

    def check_log(self, reader: int, log: int) -> None:
        words = [word for word in self.words() if word not in ("--log", str(self.log))]
        self.log.touch()
        gateway = self.begun(words, log)
        alice = self.caller()
        key = f"k{log}-" + "x" * 50
        for first in range(0, 1600, 400):
            alice.socket.sendall(b"".join(b"%s%d fund 1 1\n" % (key.encode(), first + it) for it in range(400)))
            self.assertEqual([alice.read() for _ in range(400)], ["ok"] * 400)
        with Caller(self.counts) as asking:
            lost = next(line for line in iter(asking.read, "") if line.startswith("liq_log_lines_lost"))
        self.assertGreater(int(lost.split(" ")[1]), 0)
        os.set_blocking(reader, False)
        with contextlib.suppress(BlockingIOError):
            while os.read(reader, 65536):
                pass
        alice.ask(f"{key}-last fund 1 1")
        self.assertIn(b'"event": "lost"', os.read(reader, 65536))
        for index in range(400):
            alice.ask(f"{key}-more{index} fund 1 1")
        gateway.terminate()
        self.assertEqual(gateway.wait(30), 0)

    def test_files_that_are_another_users(self) -> None:
        """What a stranger may have made or may write is never taken for the gateway's own."""
        book = self.folder / "book"
        gateway = self.start("--book", str(book))
        self.assertEqual(self.caller().ask("a fund 1 5"), "ok")
        gateway.kill()
        gateway.wait()
        own = self.folder / "of mine"
        own.write_text("")
        for part in ("", "-wal", "-shm", "-journal"):
            with self.subTest(part):
                path = self.folder / f"book{part}"
                kept = path.read_bytes() if path.exists() else None
                links = lambda: path.symlink_to(own), lambda: os.link(own, path)
                for spoil in (*links, path.mkdir, lambda: self.foreign(path)):
                    path.unlink(missing_ok=True)
                    spoil()
                    self.assertEqual(self.ends("--book", str(book)), 1)
                    self.assertIn(f"the book {path}: it ", self.said())
                    path.rmdir() if path.is_dir() else path.unlink()
                if kept is not None:
                    path.write_bytes(kept)
                    path.chmod(0o600)
        self.start("--book", str(book))
        self.assertEqual(self.caller().ask("? wallet 1"), "5 0")

    @staticmethod
    def foreign(path: Path) -> None:
        """A file that others may write."""
        path.write_text("")
        path.chmod(0o666)

    def test_folders_that_others_may_write(self) -> None:
        """The sticky bit lets a stranger make a write-ahead log there, and is enough above the folder alone."""
        for mode in (0o777, 0o1777, 0o770):
            folder = self.folder / f"{mode:o}"
            (folder / "below").mkdir(parents=True)
            folder.chmod(mode)
            self.assertEqual(self.ends("--book", str(folder / "book")), 1)
            self.assertIn("others may write it", self.said())
            self.assertRaises(NotOwn, Log, folder / "log")
            if mode == 0o1777:
                Log(folder / "below/log").close()
            else:
                self.assertRaises(NotOwn, Log, folder / "below/log")

    def test_logs_that_are_none(self) -> None:
        own, link, pipe = (self.folder / name for name in ("own", "link", "pipe"))
        own.write_text("")
        link.symlink_to(own)
        os.mkfifo(pipe)
        for path in (link, pipe, Path("/dev/null")):
            self.assertRaises(NotOwn, Log, path)
        own.chmod(0o602)
        self.assertRaises(NotOwn, Log, own)
        own.chmod(0o600)
        if ME == 0:
            os.chown(own, 1234, 0)
            self.assertRaises(NotOwn, Log, own)

    def test_adopts_without_a_socket(self) -> None:
        gateway = self.start("--book", str(self.folder / "book"))
        self.assertEqual(self.caller().ask("a fund 1 5"), "ok")
        gateway.terminate()
        gateway.wait(30)
        shutil.rmtree(self.market)
        Service(self.market, create=True).close()
        words = [sys.executable, "-m", "liq.gateway", str(self.market), "--table", str(self.table)]
        words += ["--log", str(self.log), "--book", str(self.folder / "book")]
        for more, status in (([], 2), (["--adopt"], 0)):
            self.assertEqual(subprocess.run(words + more, env=self.environment, timeout=SECONDS).returncode, status)
        self.start("--book", str(self.folder / "book"))
        self.assertEqual(self.caller().ask("? wallet 1"), "0 0")

    def test_what_a_kill_left(self) -> None:
        gateway = self.start()
        alice = self.caller()
        self.assertEqual(alice.ask("a fund 1 5"), "ok")
        gateway.kill()
        gateway.wait()
        self.assertTrue(self.socket.exists())
        self.start()
        self.assertEqual(self.caller().ask("a fund 1 5"), "ok")
        self.assertEqual(self.caller().ask("? wallet 1"), "5 0")

    def test_what_it_does_not_begin_over(self) -> None:
        for name in ("left.liq", "right.liq"):
            (self.market / name).rename(self.folder / name)
        self.assertEqual(self.ends(), 1)
        self.assertIn("no journal", self.said())
        (self.folder / "left.liq").rename(self.market / "left.liq")
        self.socket.write_text("")
        self.assertEqual(self.ends(), 1)
        self.assertIn("something else has its name", self.said())
        self.socket.unlink()
        self.table.chmod(0o666)
        self.assertEqual(self.ends(), 1)
        self.assertIn("others may write it", self.said())
        for words in (["--idle", "no"], ["--mode", "9"], ["--idle", "0"], ["more"]):
            ran = subprocess.run(self.words(*words), env=self.environment, stderr=subprocess.DEVNULL)
            self.assertEqual(ran.returncode, 2)

    def test_a_damaged_market(self) -> None:
        (self.market / "left.liq").write_bytes(b"\1" + bytes(100))
        self.assertEqual(self.ends(), 6)

    def test_another_table_while_it_runs(self) -> None:
        gateway = self.start()
        alice, bob = self.caller("alice"), self.caller("bob")
        self.assertEqual([alice.ask("a fund 1 5"), bob.ask("a fund 10 5")], ["ok", "ok"])
        for text, event in (
            (TABLE.replace("client = 11", "client = 12"), "table not taken"),
            (TABLE.replace("client = 12", "client = 11"), "table not taken"),
            (TABLE.replace("client = 11", "client = 13"), "table not taken"),
            ("nothing", "table not taken"),
            (TABLE[: TABLE.index("[bob]")].replace("1-9", "1"), "table taken"),
        ):
            self.write_table(text)
            before = self.log.read_text().count('"table')
            gateway.send_signal(signal.SIGHUP)
            while self.log.read_text().count('"table') == before:
                time.sleep(0.02)
            self.assertEqual(json.loads(self.said())["event"], event, text)
        self.assertEqual(alice.ask("a2 take 1 1"), "ok")
        self.assertEqual(alice.ask("a fund 2 5"), "refused account 2 is none of your accounts")
        self.assertTrue(bob.ask("? wallet 10").startswith("refused caller"))
        self.assertTrue(self.is_gone(bob))

    def test_another_user_for_a_caller(self) -> None:
        """An open connection is no way around a table that was changed."""
        gateway = self.start()
        alice = self.caller()
        self.assertEqual(alice.ask("a fund 1 5"), "ok")
        self.write_table(TABLE.replace("[alice]\nrelayed = yes", "[alice]\nuser = 12345"))
        gateway.send_signal(signal.SIGHUP)
        while "table taken" not in self.log.read_text():
            time.sleep(0.02)
        self.assertTrue(alice.ask("b fund 1 5").startswith("refused caller"))
        self.assertTrue(self.is_gone(alice))
        self.assertTrue(self.caller().ask("b fund 1 5").startswith("refused caller"))

    def test_the_log_is_moved_away(self) -> None:
        gateway = self.start()
        self.log.rename(self.folder / "log.1")
        gateway.send_signal(signal.SIGHUP)
        while not self.log.exists() or not self.log.read_text():
            time.sleep(0.02)
        self.assertEqual(json.loads(self.said())["event"], "table taken")

    def test_a_rotation_behind_the_archive(self) -> None:
        gateway = self.start("--archive", str(self.folder / "archive"))
        for generation in (2, 3, 4):
            self.assertEqual(self.caller().ask(f"k{generation} fund 1 5"), "ok")
            gateway.send_signal(signal.SIGUSR1)
            while self.log.read_text().count('"rotated"') < generation - 1:
                time.sleep(0.05)
            self.assertEqual(Journal(self.market).current.generation, generation)
        self.assertEqual(self.caller().ask("k2 fund 1 5"), "ok")
        self.assertEqual(self.caller().ask("? wallet 1"), "15 0")
        while len(list((self.folder / "archive").glob("*.liq"))) < 3:
            time.sleep(0.05)

    def test_counts(self) -> None:
        self.start()
        alice = self.caller()
        for line in ("a fund 1 5", "a fund 1 5", "b take 1 9", "? wallet 1", "nothing"):
            alice.ask(line)
        with Caller(self.counts) as asking:
            found: List[str] = []
            try:
                while True:
                    found.append(asking.read())
            except Gone:
                pass
        for line in (
            'liq_lines{caller="alice",what="ok"} 1', 'liq_lines{caller="alice",what="no"} 1', "liq_market_records 1",
            'liq_lines{caller="alice",what="again"} 1', 'liq_lines{caller="alice",what="query"} 1', "liq_connections 1",
            'liq_lines{caller="alice",what="refused bad_line"} 1', "liq_run_starts 1",
        ):
            self.assertIn(line, found)
        commands = [json.loads(line) for line in self.log.read_text().splitlines() if '"command"' in line]
        self.assertEqual(
            [(it["caller"], it["client"], it["number"], it["key"], it["call"], it["reply"]) for it in commands],
            [("alice", 11, 1, "a", "fund 1 5", "ok"), ("alice", 11, 2, "b", "take 1 9", "no 14 9 5")],
        )


class Logs(InFolder):
    def test_what_can_not_be_written(self) -> None:
        log = Log()
        log._file = os.open("/dev/full", os.O_WRONLY)
        log.write("one")
        log.write("two")
        self.assertEqual(log.lost, 2)
        log._path = self.folder / "log"
        log.reopen()
        log.write("three")
        events = [json.loads(line) for line in (self.folder / "log").read_text().splitlines() if line]
        self.assertEqual([(it["event"], it.get("lines")) for it in events], [("lost", 2), ("three", None)])
        log.close()

    def test_a_flood_of_refusals(self) -> None:
        log = Log(self.folder / "log")
        for _ in range(1000):
            log.refused("alice", "verb")
        log.close()
        self.assertLess((self.folder / "log").read_text().count("\n"), 100)

    def test_counts_as_text(self) -> None:
        counts = Counts()
        counts.add("lines", caller="alice", what="ok")
        counts.add("starts", 2)
        self.assertEqual(counts.text().splitlines()[:2], ['liq_lines{caller="alice",what="ok"} 1', "liq_seconds 0"])


if __name__ == "__main__":
    unittest.main()
