"""Commands that are sent together: over the built program, and over the model as a program, which ends where it is
told."""
import os
import random
from typing import Any, List, Tuple
from unittest import mock

from liq import Service, ends, ether, lusd, refusals, service
from liq.client import Calls
from liq.errors import BadValue, NotReady, TimedOut
from liq.refusals import Refusal
from liq.replies import Adjusted, Done, Opened
from liq.together import LATER, Together

from .market import TOP, InFolder, OverProgram

RUN = f"""
import os, sys
sys.path.insert(0, {str(TOP / "clients/python")!r})
from liq.model import Market, NoRequest, answer
market = Market()
open("left.liq", "ab").close()
if not os.path.getsize("left.liq"):
    open("left.liq", "wb").write(bytes([1]) + bytes(64))
    open("lines", "w").close()
for line in open("lines").read().splitlines():
    answer(market, line)
with open("lines", "a") as kept:
    for line in sys.stdin:
        line = line.rstrip("\\n")
        ends = os.path.exists("end") and open("end").read().split() or ["", "", ""]
        if line == "end" or " ".join(ends[2:]) and line.endswith(" ".join(ends[2:])) and ends[0] == "before":
            os.remove("end"); sys.stdout.flush(); os._exit(int(ends[1]))
        try:
            reply = answer(market, line)
        except NoRequest:
            print("bad line 1", flush=True)
            sys.exit(2)
        kept.write(line + "\\n"); kept.flush()
        if " ".join(ends[2:]) and line.endswith(" ".join(ends[2:])):
            os.remove("end"); sys.stdout.flush()
            if ends[0] == "hang":
                import time; time.sleep(600)
            os._exit(int(ends[1]))
        print(reply, flush=True)
"""


def outcome(call: Any) -> Any:
    """What a call gives, or the refusal that it raises."""
    try:
        return call()
    except Refusal as refusal:
        return refusal


def same(answers: List[Any]) -> List[Tuple[Any, ...]]:
    """Replies as what is compared: refusals are not equal by themselves."""
    return [(type(it), *(it.values if isinstance(it, Refusal) else it)) for it in answers]


class Cases:
    """Cases over a service, which those who derive from them begin."""

    def test_each_command_is_replied(self) -> None:
        with self.begin() as market:
            together = Together(market)
            self.assertIs(together.fund(1, ether(10)), LATER)
            together.take(1, ether(11))
            together.open(1, ether(10), lusd(4000), hints=(5, None))
            together.open(1, ether(10), lusd(4000))
            together.adjust(1, repay=lusd(10))
            self.assertEqual((len(together), market.system().records), (5, 0))
            done, short, opened, exists, adjusted = together.send_all()
            self.assertEqual((done, opened), (Done(), Opened(lusd(4220), lusd(20))))
            self.assertEqual((adjusted, len(together)), (Adjusted(ether(10), lusd(4210), 0), 0))
            self.assertEqual((type(short), short.need, short.have), (refusals.ShortCollateral, ether(11), ether(10)))
            self.assertIsInstance(exists, refusals.TroveExists)
            self.assertEqual((together.send_all(), market.system().records), ([], 3))
            self.assertEqual(market.client(1).price(lusd(900)), Done())

    def test_they_are_replied_as_one_by_one(self) -> None:
        """A load over few clients, so that each has many commands, beside the same one sent by one client."""
        def calls(client: Calls) -> List[Any]:
            chance = random.Random(3)
            made = [outcome(lambda: client.advance(20160))]
            for _ in range(400):
                account, coll = chance.randrange(8), chance.randrange(ether(60))
                made.append(outcome(chance.choice((
                    lambda: client.fund(account, coll), lambda: client.open(account, coll, lusd(2000)),
                    lambda: client.provide(account, lusd(300)), lambda: client.price(lusd(chance.randrange(120, 1000))),
                    lambda: client.liquidate_lowest(9, 3), lambda: client.redeem(account, lusd(100)),
                    lambda: client.withdraw(account, lusd(100)), lambda: client.adjust(account, coll_in=1 + coll % 99),
                ))))
            return made

        with self.begin() as market, self.begin("other") as other:
            together = Together(market, range(100, 107))
            self.assertEqual(set(calls(together)), {LATER})
            answers, wanted = together.send_all(), calls(other.client(1))
            self.assertEqual(same(answers), same(wanted))
            self.assertTrue(any(isinstance(it, Refusal) for it in answers))
            self.assertEqual((market.system(), market.pools()), (other.system(), other.pools()))
            self.assertEqual(same(Together(market, [100, 300]).send_all()), [])

    def test_more_than_pipes_hold(self) -> None:
        with self.begin() as market:
            together, replies = Together(market), []
            for _ in range(2):
                for account in range(3000):
                    together.fund(account, 1)
                self.assertEqual(together.send_all(), [Done()] * 3000)
            self.assertEqual(market.wallet(2999).coll, 2)
            market.ask_together(["? system"] * 4000, replies.extend)
            self.assertEqual(replies, [" ".join(map(str, market.system()))] * 4000)

    def test_what_is_never_sent(self) -> None:
        with self.begin() as market:
            together = Together(market)
            for call, kind in (
                (lambda: together.fund(2**20, 1), ValueError), (lambda: together.fund(1, 1.5), TypeError),
                (lambda: together.open(1, 1, 1, hints=(1,)), ValueError), (lambda: Together(market, []), ValueError),
                (lambda: Together(market, [1, 1]), ValueError), (lambda: Together(market, [2**20]), ValueError),
                (lambda: market.ask_together(["? pools\n? pools"], print), ValueError),
                (lambda: market.ask_together(["? w\u00e4llet 1"], print), ValueError), (together.resend, RuntimeError),
                (lambda: LATER.debt, AttributeError),
            ):
                self.assertRaises(kind, call)
            self.assertEqual((together.send_all(), market.system().records, repr(LATER)), ([], 0, "LATER"))

    def test_lines_of_every_kind(self) -> None:
        with self.begin() as market:
            replies: List[str] = ["mine"]
            market.ask_together(["1 1 fund 1 5", "? wallet 1", "2 1 take 1 9", "? trove 1"], replies.extend)
            self.assertEqual(replies, ["mine", "ok", "5 0", "no 14 9 5", "none"])
            market.ask_together([], replies.extend)
            self.assertEqual((len(replies), market.ask("? wallet 1")), (5, ["5", "0"]))

    def test_a_line_that_is_no_request(self) -> None:
        with self.begin() as market:
            replies: List[str] = []
            with self.assertRaises(ends.BadLine) as end:
                market.ask_together(["1 1 fund 1 5", "? wallet 1", "1 2 fund 1 05", "1 2 fund 1 6"], replies.extend)
            self.assertEqual((replies, end.exception.pending), (["ok", "5 0"], "1 2 fund 1 05"))
            self.assertTrue(end.exception.last.startswith("bad line"))
            market.start()
            self.assertEqual(market.wallet(1).coll, 5)

    def test_runs_that_are_full(self) -> None:
        with mock.patch.object(service, "LINES_OF_A_RUN", 500), self.begin() as market:
            first, together = market.pid, Together(market, range(300))
            for _ in range(1200):
                together.fund(1, 1)
            self.assertEqual(together.send_all(), [Done()] * 1200)
            self.assertNotEqual(market.pid, first)
            self.assertEqual(market.wallet(1).coll, 1200)


class OverAProgram(OverProgram, Cases):
    """Over the built program."""

    def begin(self, name: str = "market") -> Service:
        return self.service(name)

    def test_killed_in_the_midst(self) -> None:
        """Each command counts once, whenever the kill comes."""
        chance = random.Random(8)
        for turn in range(5):
            with self.begin(f"turn{turn}") as market:
                together = Together(market, range(300))
                for _ in range(2000):
                    together.fund(1, 1)
                left, ask_text = chance.randrange(7), market.ask_text

                def kill(text: str, take: Any, timeout: Any) -> None:
                    nonlocal left
                    left -= 1
                    if left == 0:
                        os.kill(market.pid, 9)
                    ask_text(text, take, timeout)

                with mock.patch.object(market, "ask_text", kill):
                    try:
                        answers = together.send_all()
                    except ends.Killed:
                        market.start()
                        answers = together.resend()
                self.assertEqual((answers, market.wallet(1).coll), ([Done()] * 2000, 2000))


class OverTheModel(InFolder, Cases):
    """Over the model as a program."""

    def begin(self, name: str = "market") -> Service:
        made = Service(self.folder / name, self.stand_in(RUN), create="if missing")
        self.addCleanup(made.kill)
        return made

    def check_end(self, when: str) -> None:
        with self.begin() as market:
            together = Together(market, range(5, 12))
            calls = [(1, 10), (1, 20), (2, 3), (1, 77), (3, 1), (4, 5), (5, 6), (6, 7), (7, 8), (1, 9)]
            for account, coll in calls:
                together.fund(account, coll)
            together.take(9, 1)
            (self.folder / "market/end").write_text(f"{when} 9 fund 1 77")
            with self.assertRaises(ends.End) as end:
                together.send_all()
            self.assertEqual((end.exception.status, end.exception.pending), (9, "8 1 fund 1 77"))
            self.assertRaises(RuntimeError, together.send_all)
            market.start()
            answers = together.resend()
            self.assertEqual((answers[:10], type(answers[10])), ([Done()] * 10, refusals.ShortCollateral))
            self.assertEqual((market.wallet(1).coll, market.system().records), (116, 10))
            self.assertRaises(RuntimeError, together.resend)
            together.fund(1, 1)
            self.assertEqual(together.send_all(), [Done()])

    def test_an_end_before_a_command(self) -> None:
        self.check_end("before")

    def test_an_end_behind_a_command(self) -> None:
        """It was accepted and has no reply: sent once more it counts once."""
        self.check_end("behind")

    def test_no_reply_in_time(self) -> None:
        """Liq is killed, and what has no reply is sent once more."""
        self.bounded()
        with self.begin() as market:
            together = Together(market, range(5, 12), timeout=30)
            for account in range(1, 11):
                together.fund(account, 5 * account)
            (self.folder / "market/end").write_text("hang 0 fund 9 45")
            market.system()  # the program is begun, which takes its time on a busy machine
            together.timeout = 5
            with self.assertRaises(TimedOut) as late:
                together.send_all()
            self.assertEqual((late.exception.pending, late.exception.seconds), ("6 2 fund 9 45", 5))
            self.assertIsNone(market.pid)
            together.timeout = 30
            self.assertRaises(NotReady, together.resend)
            market.start()
            self.assertEqual((together.resend(), market.system().records), ([Done()] * 10, 10))
            for wrong in (0, -1, 10**9):
                self.assertRaises(BadValue, Together, market, timeout=wrong)

    def test_a_full_journal(self) -> None:
        from liq.model import amounts, state

        fewer = "from liq.model import state; state.RECORDS_MOST = 6; market = Market()"
        text = RUN.replace("market = Market()", fewer)
        with Service(self.folder / "market", self.stand_in(text), create=True) as market:
            together = Together(market, range(20))
            for account in range(8):
                together.fund(account, 5)
            together.take(7, 5)
            answers = together.send_all()
            full = [refusals.JournalFull] * 2
            self.assertEqual([type(it) for it in answers], [Done] * 6 + full + [refusals.ShortCollateral])
            rotating = Together(market, range(20), rotating=market.client(99))
            for account in range(8):
                rotating.fund(account, 5)
            rotating.take(7, 5)
            self.assertEqual(rotating.send_all(), [Done()] * 9)
            self.assertEqual((market.system().records, market.wallet(7).coll), (3, 0))
        self.assertEqual((amounts.RECORDS_MOST, state.RECORDS_MOST), (10**6, 10**6))
