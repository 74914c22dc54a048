"""The exact shares, and the audit over them."""
import contextlib
import io
import random
import shutil
import unittest
from fractions import Fraction
from pathlib import Path

from liq import Refusal, Service, recheck
from liq.recheck import Allowances, Differs, cut_off, said_of
from liq.service import find_program
from liq.shares import PlainLedger, Share

from .market import OverProgram, status_of


class Shares(unittest.TestCase):
    def test_two_depositors_and_two_offsets(self) -> None:
        ledger = PlainLedger()
        ledger.change(1, put=100)
        ledger.change(2, put=200)
        ledger.offset(debt=100, coll=70, total=300)
        self.assertEqual(ledger.share(1), Share(Fraction(200, 3), Fraction(70, 3)))
        ledger.change(1, put=50)
        ledger.offset(debt=50, coll=30, total=250)
        self.assertEqual(ledger.share(1), Share(Fraction(280, 3), Fraction(70, 3) + Fraction(30 * 350, 750)))
        self.assertEqual(ledger.share(2), Share(Fraction(320, 3), Fraction(140, 3) + Fraction(30 * 400, 750)))
        ledger.change(2, paid=106)
        self.assertEqual(ledger.share(2).balance, Fraction(2, 3))

    def test_an_offset_of_the_whole_pool(self) -> None:
        ledger = PlainLedger()
        ledger.change(1, put=7)
        ledger.offset(debt=7, coll=5, total=7)
        ledger.change(2, put=3)
        ledger.offset(debt=1, coll=6, total=3)
        self.assertEqual(ledger.share(1), Share(Fraction(0), Fraction(5)))
        self.assertEqual(ledger.share(2), Share(Fraction(2), Fraction(6)))

    def test_a_depositor_that_has_a_share_already(self) -> None:
        ledger = PlainLedger()
        ledger.begin(1, Share(Fraction(10, 3), Fraction(1, 7)))
        ledger.begin(2, Share(Fraction(5, 3), Fraction(0)))
        ledger.offset(debt=1, coll=10, total=5)
        self.assertEqual(ledger.share(1), Share(Fraction(8, 3), Fraction(1, 7) + Fraction(20, 3)))
        self.assertEqual(ledger.share(2), Share(Fraction(4, 3), Fraction(10, 3)))

    def test_from_halves_as_one_by_one(self) -> None:
        """Drawn operations and offsets, some of the whole pool, beside fractions that are followed one by one."""
        for seed in range(60):
            chance, ledger = random.Random(seed), PlainLedger()
            balances, gains = {}, {}
            for account in range(chance.randrange(4)):
                share = Share(*(Fraction(chance.randrange(99), chance.randrange(1, 9)) for _ in (0, 1)))
                ledger.begin(account, share)
                balances[account], gains[account] = share
            for _ in range(chance.randrange(40)):
                account, total = chance.randrange(6), chance.randrange(1, 99)
                if chance.random() < 0.5:
                    put, paid = chance.randrange(50), chance.randrange(5)
                    ledger.change(account, put, paid)
                    balances[account] = balances.get(account, Fraction(0)) + put - paid
                    gains.setdefault(account, Fraction(0))
                else:
                    debt, coll = chance.choice((total, chance.randrange(total))), chance.randrange(30)
                    ledger.offset(debt, coll, total)
                    gains = {each: gains[each] + balances[each] * coll / total for each in gains}
                    balances = {each: balances[each] * (total - debt) / total for each in balances}
                if chance.random() < 0.1:
                    ledger.share(account)
            found = {each: ledger.share(each) for each in ledger.accounts}
            self.assertEqual(found, {each: Share(balances[each], gains[each]) for each in sorted(balances)})
            if not any(over > 1 for over in ledger.begun.values()):
                self.assertEqual(ledger.sums, Share(sum(balances.values()), sum(gains.values())))

    def test_allowances(self) -> None:
        allowed = Allowances()
        allowed.change(1, 100)
        allowed.change(2, 200)
        allowed.offset(100, 300)
        allowed.change(1, 116)
        allowed.offset(50, 250)
        self.assertEqual((allowed.of(1), allowed.of(2)), ((3, 31), (2, 16)))

    def test_a_fraction_is_cut_off(self) -> None:
        for part, text in (((2, 3), "0.666"), ((5, 1), "5.000"), ((20001, 10000), "2.000")):
            self.assertEqual(cut_off(Fraction(*part)), text)


class OfMarkets(OverProgram):
    def crash(self, name: str = "market", rotations: int = 0, program: Path = None) -> Path:
        """A market in which the price falls, troves are liquidated, and depositors come and go."""
        chance = random.Random(5)
        with Service(self.folder / name, program, create=True) as market:
            client, other = market.client(1), market.client(2)
            for account in range(1, 31):
                client.fund(account, 2 * 10**10)
                client.open(account, 2 * 10**10, chance.randrange(5 * 10**9, 9 * 10**9))
                client.provide(account, chance.randrange(1, 4 * 10**9))
            for step in range(120):
                if rotations and step % (120 // rotations) == 60 // rotations:
                    other.rotate()
                client.price(10**9 - step * 52 * 10**5)
                one, two, three = (chance.randrange(1, 31) for _ in range(3))
                for call, *words in (
                    (client.liquidate_lowest, 99, 2),
                    (client.gain_to_trove, one),
                    (client.withdraw, two, chance.randrange(10**9)),
                    (client.provide, three, chance.randrange(1, 10**9)),
                ):
                    try:
                        call(*words)
                    except Refusal:
                        pass
        return self.folder / name

    def test_beside_audit(self) -> None:
        result = recheck.recheck(self.crash())
        self.assertEqual((result.faults, result.audit.of, len(result.rows)), ([], 30, 30))
        self.assertGreater(result.replay.offsets, 8)
        self.assertTrue(any(row.balance for row in result.rows))
        said = list(said_of(result))
        self.assertIn("audit says the same in 30 rows, and each exact share lies within", said)
        self.assertIn("proves nothing", said[-1])

    def test_over_scales_and_the_end_of_an_epoch(self) -> None:
        """Offsets that leave next to nothing of the pool, and one that leaves nothing."""
        with Service(self.folder / "market", create=True) as market:
            client = market.client(1)
            client.fund(1, 10**15)
            client.open(1, 10**15, 10**13)
            client.send(1, 2, 10**9)
            for step, left in enumerate((1, 1000, 1, 7, 1, 0, 10**6, 1), 10):
                client.fund(step, 10**10)
                debt = client.open(step, 10**10, 4 * 10**9).debt
                if step % 2:
                    client.provide(2, 3000 * step)
                client.provide(1, debt + left - market.pools().pool_lusd)
                client.price(450 * 10**6)
                self.assertEqual(client.liquidate(9, step).pool_debt, debt)
                client.price(10**9)
        result = recheck.recheck(self.folder / "market")
        self.assertEqual((result.faults, result.replay.offsets, result.replay.allowances.epoch), ([], 8, 1))
        self.assertGreater(result.replay.allowances.scale, 0)

    def test_the_market_of_the_first_pages(self) -> None:
        """docs/START.md has the balance, the gain, both allowances and, as a whole number, the exact gain."""
        self.lines("market", [
            "1 1 fund 1 8440000000", f"1 2 open 1 8440000000 4000000000 {10**18} - -",
            "2 1 fund 2 12660000000", f"2 2 open 2 12660000000 4000000000 {10**18} - -",
            "1 3 send 1 2 220000000", "2 3 provide 2 4220000000", "3 1 price 560000000", "3 2 liquidate 3 1",
        ])
        result = recheck.recheck(self.folder / "market")
        self.assertEqual([str(row) for row in result.rows], ["2 0 0.000 6 8247839285 8247839286.000 66"])

    def test_what_is_no_market(self) -> None:
        with contextlib.redirect_stdout(io.StringIO()) as said, contextlib.redirect_stderr(said):
            self.assertEqual((status_of(recheck.main), recheck.main([str(self.folder)])), (2, 1))
            (self.folder / "left.liq").write_bytes(b"\1LIQJRNL2" + bytes(100))
            self.assertEqual(recheck.main([str(self.folder)]), 1)
        self.assertEqual(said.getvalue().count("recheck refuses: "), 2)
        self.assertIn("left.liq is damaged at 0", said.getvalue())

    def test_the_files_are_left_alone(self) -> None:
        folder = self.crash()
        before = [(folder / name).read_bytes() for name in ("left.liq", "right.liq")]
        recheck.recheck(folder)
        self.assertEqual([(folder / name).read_bytes() for name in ("left.liq", "right.liq")], before)
        self.assertEqual(sorted(path.name for path in folder.iterdir()), ["left.liq", "right.liq"])

    def test_behind_one_rotation_all_commands_are_there(self) -> None:
        plain, turned = (recheck.recheck(self.crash(str(count), count)) for count in (0, 1))
        self.assertEqual([str(row) for row in turned.rows], [str(row) for row in plain.rows])
        self.assertEqual((turned.faults, turned.why_no_audit), ([], "rotated 2"))

    def test_behind_more_rotations_it_begins_with_a_checkpoint(self) -> None:
        result = recheck.recheck(self.crash(rotations=3))
        self.assertEqual((result.faults, result.replay.start.generation, result.why_no_audit), ([], 3, "rotated 4"))
        self.assertGreater(result.replay.offsets, 0)
        self.assertIn("are gone", " ".join(said_of(result)))

    def test_a_program_that_pays_more_is_found_out(self) -> None:
        generous = self.stand_in(GENEROUS.format(program=find_program()))
        with Service(self.folder / "market", generous, create=True) as market:
            client = market.client(1)
            client.fund(1, 10**10)
            client.open(1, 10**10, 4 * 10**9)
            client.provide(1, 10**9)
            client.withdraw(1, 10**8)
        result = recheck.recheck(self.folder / "market", generous)
        self.assertIn("does not hold: 1 900000000 899999998.000 2 0 0.000 30", result.faults)

    def test_a_replay_that_comes_to_another_market_is_refused(self) -> None:
        folder = self.crash()
        other = self.folder / "other"
        shutil.copytree(folder, other)
        with Service(other) as market:
            market.client(3).fund(1, 1)
        real, again = recheck.market, iter([other, None])

        def swapped(copied, program):
            return real(next(again) or copied, program)

        recheck.market = swapped
        self.addCleanup(setattr, recheck, "market", real)
        with self.assertRaises(Differs) as differs:
            recheck.recheck(folder)
        self.assertIn("brought: ", str(differs.exception))


GENEROUS = """
import subprocess, sys
if sys.argv[1] != "run":
    sys.exit(subprocess.call([{program!r}, *sys.argv[1:]]))
liq = subprocess.Popen([{program!r}, "run"], stdin=subprocess.PIPE, stdout=subprocess.PIPE, text=True, bufsize=1)
for line in sys.stdin:
    liq.stdin.write(line)
    words = liq.stdout.readline().split()
    if "withdraw" in line and words[0] == "ok":
        words[1] = str(int(words[1]) + 2)
    print(*words, flush=True)
liq.stdin.close()
sys.exit(liq.wait())
"""
