"""A time for each call: behind one that is over the reply is unknown, and the same line again tells the truth."""
import pickle
import socket
import threading
import time
from typing import Any, Callable, List

from liq import BadValue, LiqError, NotReady, Service, TimedOut, refusals
from liq.ends import Killed
from liq.gateway.caller import Caller, Gone
from liq.gateway.run import Run
from liq.replies import Advanced, Done

from .market import InFolder, OverProgram
from .standin import answers_late, never_answers

SHORT = 0.3  # seconds that are too few for what is late
AMPLE = 5.0  # that are enough for what is quick, also beside other work
LONG = 60.0


class Timed(InFolder):
    """A case in which nothing may take long."""

    def setUp(self) -> None:
        super().setUp()
        self.bounded(120)

    def over(self, text: str, **how: Any) -> Service:
        made = Service(self.folder, self.stand_in(text), create=True, **how)
        self.addCleanup(made.kill)
        return made

    def late(self, call: Callable[[], Any], pending: str) -> TimedOut:
        with self.assertRaises(TimedOut) as raised:
            call()
        self.assertEqual(raised.exception.pending, pending)
        self.assertIsInstance(raised.exception, LiqError)
        self.assertIsInstance(raised.exception, TimeoutError)
        return raised.exception


class NeverAnswered(Timed):
    """Over a program that never answers."""

    def test_each_call_takes_the_time_of_the_service(self) -> None:
        market = self.over(never_answers(), timeout=SHORT)
        begin = time.monotonic()
        late = self.late(lambda: market.ask("1 1 fund 1 5"), "1 1 fund 1 5")
        self.assertGreaterEqual(time.monotonic() - begin, SHORT)
        self.assertEqual((late.seconds, market.pending, market.pid is not None), (SHORT, "1 1 fund 1 5", True))
        self.assertEqual(str(late), "no reply in 0.3 seconds; without a reply: 1 1 fund 1 5")
        self.assertEqual(str(pickle.loads(pickle.dumps(late))), str(late))

    def test_or_a_time_of_its_own(self) -> None:
        market = self.over(never_answers())
        for call, pending in (
            (lambda: market.ask("? pools", SHORT), "? pools"),
            (lambda: market.ask_many(["? pools", "? system"], SHORT), "? pools"),
            (lambda: market.within(SHORT).wallet(1), "? pools"),
            (lambda: market.within(SHORT).wallets([1, 2]), "? pools"),
            (lambda: market.client(1, timeout=SHORT), "? pools"),
        ):
            self.late(call, pending)
        market.kill()
        market.start()
        self.assertIsNone(market.pending)
        self.late(lambda: market.within(SHORT).wallet(3), "? wallet 3")
        self.late(lambda: market.client(4, timeout=SHORT), "? wallet 3")

    def test_what_is_no_time(self) -> None:
        for timeout in (0, -1.0, float("nan"), float("inf")):
            with self.assertRaises(BadValue):
                Service(self.folder, "none", create=True, timeout=timeout)
            with self.assertRaises(BadValue):
                Caller(self.folder / "none", None, timeout)
        self.assertRaises(BadValue, self.over(never_answers()).ask, "? pools", -1)

    def test_a_close_in_good_order(self) -> None:
        market = self.over(never_answers(), timeout=LONG)
        market.close()
        self.assertIsNone(market.pid)

    def test_a_close_that_is_late_kills(self) -> None:
        market = self.over(never_answers(stays=True))
        with self.assertRaises(TimedOut) as raised:
            market.close(SHORT)
        self.assertEqual(str(raised.exception), "liq did not end in 0.3 seconds")
        self.assertIsNone(market.pid)

    def test_the_run_of_a_gateway_is_killed(self) -> None:
        Service(self.folder, self.stand_in(never_answers()), create=True).close()
        (self.folder / "left.liq").write_bytes(b"\1" + bytes(200))
        run = Run(self.folder, self.stand_in(never_answers()), SHORT, SHORT)
        with self.assertRaises(Killed) as raised:
            list(run.exchange(["1 1 fund 1 5", "2 1 fund 1 5"]))
        self.assertEqual((raised.exception.pending, run.pid), ("1 1 fund 1 5", None))


class Late(Timed):
    """Over a program that answers late: when it is told to, so that nothing depends on how quick the machine is."""

    def setUp(self) -> None:
        super().setUp()
        self.market = self.over(answers_late())
        self.client = self.market.client(1)

    def answers(self) -> None:
        """Lets it answer."""
        (self.folder / "answers").touch()

    def test_a_command_is_waited_for_and_counts_once(self) -> None:
        line = "1 1 fund 77 5"
        self.late(lambda: self.client.within(SHORT).fund(77, 5), line)
        self.assertEqual(self.client.next_number, 1)
        for call in (lambda: self.client.advance(5), lambda: self.market.wallet(1), lambda: self.market.client(2)):
            self.assertRaises(NotReady, call)
        self.late(lambda: self.client.resend(SHORT), line)
        self.answers()
        self.assertEqual(self.client.resend(), Done())
        self.assertEqual((self.client.next_number, self.market.pending), (2, None))
        self.assertEqual(self.client.advance(5), Advanced(5))
        self.assertEqual(self.market.wallet(77).coll, 5)
        self.assertRaises(NotReady, self.client.resend)

    def test_by_lines(self) -> None:
        self.late(lambda: self.market.ask("1 1 fund 77 5", SHORT), "1 1 fund 77 5")
        self.answers()
        self.assertEqual(self.market.ask("1 1 fund 77 5"), ["ok"])
        self.assertEqual(self.market.ask("? next_number 1"), ["2"])

    def test_a_refusal_that_is_late(self) -> None:
        self.late(lambda: self.client.within(SHORT).take(77, 5), "1 1 take 77 5")
        self.answers()
        with self.assertRaises(refusals.ShortCollateral):
            self.client.resend()
        self.assertEqual(self.client.fund(1, 5), Done())

    def test_a_query_that_is_late_is_left_out(self) -> None:
        self.late(lambda: self.market.within(SHORT).wallet(77), "? wallet 77")
        self.answers()
        self.assertEqual(self.client.fund(1, 5), Done())
        (self.folder / "answers").unlink()
        self.late(lambda: self.market.ask_many(["? wallet 1", "? wallet 77", "? pools"], AMPLE), "? wallet 77")
        self.answers()
        self.assertEqual(self.market.wallet(1).coll, 5)

    def test_in_another_run(self) -> None:
        """What had not come to the disk is carried out once more, and counts once: here the model forgets all."""
        self.late(lambda: self.client.within(SHORT).fund(77, 5), "1 1 fund 77 5")
        self.market.kill()
        (self.folder / "left.liq").write_bytes(b"\1" + bytes(200))
        self.assertRaises(NotReady, self.client.resend)
        self.market.start()
        self.answers()
        self.assertEqual(self.client.resend(), Done())
        self.assertEqual(self.market.ask("? next_number 1"), ["2"])

    def test_the_time_of_a_client(self) -> None:
        hasty = self.market.client(2, timeout=LONG)
        hasty.timeout = SHORT
        self.late(lambda: hasty.fund(77, 5), "2 1 fund 77 5")
        self.answers()
        self.assertEqual(hasty.resend(LONG), Done())


class FullAndLate(Timed):
    def test_a_rotation_is_part_of_the_time(self) -> None:
        market = self.over("""
import os, sys, time
for line in sys.stdin:
    words = line.split()
    while words[2:] == ["rotate"] and not os.path.exists("answers"):
        time.sleep(0.01)
    print("1" if words[0] == "?" else "ok 2" if words[2:] == ["rotate"] else "no 81 1000000", flush=True)
""")
        client = market.client(1, rotate_when_full=True)
        self.late(lambda: client.within(AMPLE).advance(1), "1 1 rotate")
        (self.folder / "answers").touch()
        self.assertEqual(client.resend().generation, 2)
        self.assertEqual(client.next_number, 2)


class OverTheProgram(OverProgram):
    """What is quick is in time."""

    def test_a_timeout_that_is_never_reached(self) -> None:
        with Service(self.folder / "market", create=True, timeout=LONG) as market:
            client = market.client(1)
            for account in range(20):
                client.within(LONG).fund(account, account + 1)
            self.assertEqual([row.coll for row in market.wallets(range(20))], list(range(1, 21)))
            self.assertEqual(client.rotate().generation, 2)


class Callers(Timed):
    """A gateway's caller, over a socket that answers when it is told to."""

    def setUp(self) -> None:
        super().setUp()
        self.path = self.folder / "socket"
        self.listening = socket.socket(socket.AF_UNIX, socket.SOCK_STREAM)
        self.addCleanup(self.listening.close)
        self.listening.bind(str(self.path))
        self.listening.listen()
        self.caller = Caller(self.path, timeout=SHORT)
        self.addCleanup(self.caller.close)
        self.there, _ = self.listening.accept()
        self.addCleanup(self.there.close)

    def got(self) -> List[bytes]:
        """The lines that came."""
        return self.there.recv(1000).splitlines()

    def test_a_key_is_waited_for(self) -> None:
        self.late(lambda: self.caller.ask("a fund 1 5"), "a fund 1 5")
        for line in ("b fund 1 5", "? wallet 1"):
            self.assertRaises(NotReady, self.caller.ask, line)
        self.late(lambda: self.caller.ask("a fund 1 5", 0.1), "a fund 1 5")
        threading.Timer(0.5, self.there.sendall, [b"ok\n"]).start()
        self.assertEqual(self.caller.ask("a fund 1 5", LONG), "ok")
        self.assertEqual((self.got(), self.caller.pending), ([b"a fund 1 5"], None))

    def test_a_query_that_is_late_is_left_out(self) -> None:
        self.late(lambda: self.caller.ask("? wallet 1"), "? wallet 1")
        self.there.sendall(b"5 0\nok\n")
        self.assertEqual(self.caller.ask("a take 1 5"), "ok")
        self.assertEqual(self.got(), [b"? wallet 1", b"a take 1 5"])

    def test_lines_that_are_sent_ahead(self) -> None:
        for line in ("? wallet 1", "? wallet 2"):
            self.caller.send(line)
        self.there.sendall(b"5 0\n")
        self.assertEqual(self.caller.read(), "5 0")
        self.late(self.caller.read, "? wallet 2")
        self.there.sendall(b"6 0\n")
        self.assertEqual(self.caller.read(LONG), "6 0")

    def test_one_that_takes_nothing(self) -> None:
        """A line of which a part was sent ends the connection: nothing may stand behind it."""
        with self.assertRaises(TimedOut):
            self.caller.send("x" * 10**7)
        self.assertRaises(OSError, self.caller.ask, "? pools")

    def test_the_end(self) -> None:
        self.late(lambda: self.caller.ask("a fund 1 5"), "a fund 1 5")
        self.there.close()
        with self.assertLogs("liq", "ERROR") as logged:
            self.assertRaises(Gone, self.caller.ask, "a fund 1 5")
        self.assertEqual(logged.records[0].getMessage(),
            "gateway: the connection has ended; without a reply: a fund 1 5")
        self.assertRaises(BadValue, self.caller.send, "a\nb")
