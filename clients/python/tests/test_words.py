"""The other words of the command line: as rows by their formats, and over the built program where it has them."""
import unittest
from decimal import Decimal
from unittest import mock

from liq import MarketExists, NoJournal, ends, refusals, words

from .market import OverProgram, document

REPORT = (
    '{"deposits":[],"pool":{"epoch":0,"p":"1000000000000000000","scale":0,"sum":"0"},"system":{"base":0,'
    '"coll":10000000000,"debt":4220000000,"fee_minute":0,"minute":0,"mode":0,"price":1000000000,"records":2,'
    '"stakes":10000000000,"troves":1},'
    '"troves":[{"account":1,"coll":10000000000,"debt":4220000000,"stake":10000000000}]}'
)


class Formats(unittest.TestCase):
    def test_state(self) -> None:
        told = "560000000 0 0 0 0 1 126 126 42 9|126 42 0 0 2 0 0 4 0 8|pool 1000000000000000000 0 1 0|journal 1 9"
        found = words.read_state(told.split("|"))
        self.assertEqual((found.system.price, found.system.records, found.pools.pool_coll), (560000000, 9, 8))
        self.assertEqual(found[2:], (10**18, 0, 1, 0, 1, 9))

    def test_an_audit_row(self) -> None:
        row = words.AuditRow(1, 92, 94, 92, 3, 36, 39, 36, 31)
        self.assertTrue(row.holds)
        self.assertFalse(row._replace(balance=95).holds)
        self.assertFalse(row._replace(balance=88).holds)
        self.assertFalse(row._replace(gain=40).holds)
        self.assertFalse(row._replace(gain=4).holds)

    def test_a_report(self) -> None:
        found = words.read_report(REPORT)
        self.assertEqual((found.p, found.scale, found.epoch, found.sum, found.deposits), (10**18, 0, 0, 0, []))
        self.assertEqual((found.system.price, found.system.troves, found.system.recovery), (10**9, 1, False))
        self.assertEqual(found.troves, [words.ReportedTrove(account=1, coll=10**10, debt=4220000000, stake=10**10)])

    def test_staking(self) -> None:
        told = "ok|ok|no 43 4 3|no 44 1 2 2|1 3 0 8571428 2|2 4 0 11428571 2|unshared 0 0".split("|")
        found = words.read_staking(told, 4)
        self.assertEqual(found.replies[:2], [None, None])
        self.assertIsInstance(found.replies[2], refusals.ShortStake)
        self.assertEqual((found.replies[3].at, found.replies[3].least, found.replies[3].most), (1, 2, 2))
        self.assertEqual(found.rows[1], words.StakeRow(account=2, stake=4, coll=0, lusd=11428571, allowance=2))
        self.assertEqual((found.unshared_coll, found.unshared_lusd), (0, 0))

    def test_rewards(self) -> None:
        told = "ok|1 39999 8 9999 9 30000|2 79999 10 79999 - 0|issued 120000 unshared 0".split("|")
        found = words.read_rewards(told, 1)
        self.assertEqual(found.rows[0], words.RewardRow(1, reward=39999, allowance=8, kept=9999, front=9, given=30000))
        self.assertIsNone(found.rows[1].front)
        self.assertEqual((found.issued, found.unshared), (120000, 0))

    def test_numbers_of_a_load_that_are_none(self) -> None:
        for wrong, kind in ((1.5, TypeError), ("7", TypeError), (True, TypeError), (-1, ValueError)):
            self.assertRaises(kind, words.generate, wrong, 5)
            self.assertRaises(kind, words.generate, 5, wrong)


class OfProgram(OverProgram):
    def borrow(self) -> None:
        with self.service() as market:
            client = market.client(1)
            client.fund(1, 10**10)
            client.open(1, 10**10, 4 * 10**9)

    def has(self, word: str) -> None:
        """Skips the case where the program does not have the word."""
        try:
            words._run(self.folder / "market", [word], b"", None)
        except ends.Usage:
            self.skipTest(f"the program does not have the word {word}")
        except ends.End:
            pass

    def test_words_want_a_journal(self) -> None:
        for word in (words.state, words.audit, words.report):
            self.assertRaises(NoJournal, word, self.folder)

    def test_state_and_audit(self) -> None:
        self.borrow()
        with self.service() as market:
            system, pools = market.system(), market.pools()
            market.client(1).provide(1, 7)
        found = words.state(self.folder / "market")
        self.assertEqual((found.pools.pool_lusd, found.p, found.generation, found.records), (7, 10**18, 1, 3))
        self.assertEqual(found.system, system._replace(records=3))
        self.assertEqual(found.pools, pools._replace(pool_lusd=7))
        row = words.AuditRow(1, 7, 7, 7, 1, 0, 0, 0, 15)
        self.assertEqual(words.audit(self.folder / "market"), words.Audit([row], 1, 1))

    def test_an_audit_behind_a_rotation(self) -> None:
        with self.service() as market:
            market.client(1).rotate()
        with self.assertRaises(ends.Rotated) as end:
            words.audit(self.folder / "market")
        self.assertEqual((end.exception.status, end.exception.number), (9, 2))

    def test_serve(self) -> None:
        scripts = {1: ["1 1 fund 1 10000000000", "? wallet 1"], 2: ["2 1 fund 2 5", "2 2 take 2 6"]}
        served = words.serve(self.folder / "market", scripts, create=True)
        self.assertEqual(served.replies, {1: [["ok"], ["10000000000", "0"]], 2: [["ok"], ["no", "14", "6", "5"]]})
        self.assertEqual(sorted(served.history), [(1, 1), (1, 2), (2, 1), (2, 2)])
        many = {session: ["? system"] * 4000 for session in range(1, 9)}
        self.assertEqual(len(words.serve(self.folder / "market", many).history), 32000)
        with self.assertRaises(ends.BadLine) as end:
            words.serve(self.folder / "market", {1: ["? pools", "pools"]})
        self.assertEqual(end.exception.number, 2)

    def test_serve_makes_a_new_market_or_goes_on(self) -> None:
        folder, scripts = self.folder / "market", {1: ["1 1 fund 1 5"]}
        self.assertRaises(NoJournal, words.serve, folder, scripts)
        self.assertEqual(words.serve(folder, scripts, create=True).replies, {1: [["ok"]]})
        self.assertRaises(MarketExists, words.serve, folder, scripts, create=True)
        more = {1: ["1 2 fund 1 5", "? wallet 1"]}
        self.assertEqual(words.serve(folder, more, create="if missing").replies, {1: [["ok"], ["10", "0"]]})

    def test_lines_that_would_be_two(self) -> None:
        """Nothing is run, nor made, where a line has an end of its own in it, which would shift the replies."""
        self.borrow()
        folder = self.folder / "market"
        for word, line in ((words.staking, "0 1 stake 3\n0 2 stake 4"), (words.rewards, "tag 1 2 3\n")):
            for bad in (line, "\u0661"):
                with mock.patch.object(words, "_run") as run:
                    self.assertRaises(ValueError, word, folder, [bad])
                run.assert_not_called()
        for bad in ("1 1 fund 1 5\n2 ? pools", "? pools\n", "\u0661"):
            self.assertRaises(ValueError, words.serve, self.folder / "new", {1: ["? pools", bad]}, create=True)
        self.assertFalse((self.folder / "new").exists())

    def test_a_carriage_return_is_told_by_the_program(self) -> None:
        self.borrow()
        folder = self.folder / "market"
        for word, line in (("staking", "0 1 stake 3\r"), ("rewards", "tag 1 2 3\r")):
            self.has(word)
            with self.assertRaises(ends.BadLine) as end:
                getattr(words, word)(folder, [line])
            self.assertEqual(end.exception.number, 1)
        with self.assertRaises(ends.BadLine):
            words.serve(folder, {1: ["? pools\r"]})

    def test_a_generated_load(self) -> None:
        told = document("SIMULATING.md").partition("$ liq gen 7 20000\n")[2].partition("\n")[0]
        self.assertEqual(words.generate(Decimal("7.0"), 20000), words.Generated(*map(int, told.split(" ")[1::2])))

    def test_report(self) -> None:
        self.borrow()
        self.has("report")
        self.assertEqual(words.report(self.folder / "market"), words.read_report(REPORT))

    def test_follow(self) -> None:
        self.borrow()
        self.has("follow")
        data = (self.folder / "market/left.liq").read_bytes()
        self.assertEqual(words.follow(data), words.state(self.folder / "market"))
        self.assertEqual(words.follow(data[:-130]).records, 1)
        with self.assertRaises(ends.Damaged) as end:
            words.follow(data[:70] + b"\7" + data[71:])
        self.assertEqual((end.exception.last, end.exception.number), ("damaged input 1", 1))
        with self.service() as market:
            market.client(1).rotate()
        with self.assertRaises(ends.Rotated) as rotated:
            words.follow((self.folder / "market/right.liq").read_bytes())
        self.assertEqual(rotated.exception.number, 2)

    def test_staking(self) -> None:
        self.borrow()
        self.has("staking")
        found = words.staking(self.folder / "market", ["0 1 stake 3", "0 2 stake 4", "2 1 unstake 4", "1 2 stake 1"])
        self.assertEqual([reply and reply.code for reply in found.replies], [None, None, 43, 44])
        self.assertEqual(found.rows, [words.StakeRow(1, 3, 0, 8571428, 2), words.StakeRow(2, 4, 0, 11428571, 2)])

    def test_rewards(self) -> None:
        self.borrow()
        self.has("rewards")
        self.assertEqual(words.rewards(self.folder / "market", []), words.Rewards([], [], 0, 0))
