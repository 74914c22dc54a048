"""The rules a second time: beside the examples of the pages, values by hand, and the program."""
import re
import shlex
import subprocess
import sys
import unittest
from fractions import Fraction
from typing import Iterator, List, Tuple

from liq import Journal, refusals
from liq.journal import DamagedFile, DepositRow, KeptReply
from liq.model import Disks, Fee, Market, NoRequest, Offset, Own, answer, market_on, read_request, run
from liq.model.amounts import NUMBER_MOST, ONE, SUM_MOST
from liq.model.beside import exact_fees, exact_rewards, rewards_text, staking_text
from liq.model.disks import checkpoint_bytes
from liq.model.owed import audit_limit, audit_text, depositors, exact_shares
from liq.model.pool import Place, gain_by, place_after
from liq.model.rate import borrow_rate, decayed, power_of, risen
from liq.model.told import follow_text, gen_text, report_text, state_text
from liq.shares import Share

from .market import PROGRAM, TOP, InFolder, OverProgram, document

ANY = ONE


def examples(page: str) -> Iterator[Tuple[Market, List[str], List[str]]]:
    """The lines that a page sends to `liq run`, the market of the folder in which it is by then, and the replies."""
    markets = [Market()]
    for block in re.findall(r"```console\n(.*?)```", document(page), re.S):
        for command in re.split(r"^\$ ", block, flags=re.M)[1:]:
            first, *replies = command.splitlines()
            if "mkdir" in first or "mktemp" in first:
                markets.append(Market())
            elif first == "cd ..":
                markets.pop()
            elif first.endswith("| liq run"):
                words = shlex.split(first[: -len("| liq run")])
                yield markets[-1], words[2:] if words[0] == "printf" else words[1:], replies


def market_behind(*lines: str) -> Market:
    """A market behind lines that are all accepted, with its events."""
    market = Market()
    market.events = []
    for line in lines:
        reply = answer(market, line)
        assert reply.startswith("ok"), (line, reply)
    return market


class OfPages(unittest.TestCase):
    """What the pages print."""

    def test_each_example_of_a_run(self) -> None:
        seen = 0
        for market, lines, replies in examples("REFERENCE.md"):
            seen += 1
            with self.subTest(lines=lines):
                self.assertEqual(list(run(market, lines)), replies)
        self.assertGreaterEqual(seen, 24)

    def test_a_generated_load(self) -> None:
        told = re.search(r"^\$ liq gen 7 20000\n(.*)$", document("SIMULATING.md"), re.M)
        assert told
        self.assertEqual(gen_text(7, 20000), told[1])

    def test_what_the_words_tell_of_new_disks(self) -> None:
        text = document("FORMATS.md")
        self.assertIn("".join(f"    {line}\n" for line in state_text(Market())), text)
        self.assertIn(f"    {report_text(Market())}\n", text)
        self.assertEqual(audit_text(Market()), ["within 0 of 0"])
        for whole in (b"", b"\1LIQJRNL2", bytes(65)):
            self.assertEqual(follow_text(whole), state_text(Market()))

    def test_stakers(self) -> None:
        lines = ["0 1 stake 3", "0 2 stake 4", "2 1 unstake 4", "1 2 stake 1"]
        fees = [Fee(2, 0, 20000000)]
        self.assertEqual(staking_text(fees, 2, lines), [
            "ok", "ok", "no 43 4 3", "no 44 1 2 2", "1 3 0 8571428 2", "2 4 0 11428571 2", "unshared 0 0",
        ])
        self.assertEqual(exact_fees(fees, 2, lines), {1: [0, Fraction(60000000, 7)], 2: [0, Fraction(80000000, 7)]})
        self.assertRaises(NoRequest, staking_text, fees, 2, ["9 1 stake 03"])

    def test_reward_units(self) -> None:
        market = Market()
        market.minute = 4
        market.events = [
            Own(1, 0, 2, 5 * 10**9, 0, 0, 5 * 10**9), Own(2, 0, 3, 10**10, 0, 0, 10**10),
            Offset(3, 3, 4220000000, 1, 15 * 10**9),
        ]
        self.assertEqual(rewards_text(market, ["tag 2 9 250000000000000000"]), [
            "ok", "2 39999 16 9999 9 30000", "3 79999 26 79999 - 0", "issued 120000 unshared 0",
        ])
        self.assertEqual(exact_rewards(market), {2: 40000, 3: 80000})

    def test_the_audit_of_the_first_pages(self) -> None:
        """docs/START.md has the balance, the gain, both allowances and, as a whole number, the exact gain."""
        market = market_behind(
            "1 1 fund 1 8440000000", f"1 2 open 1 8440000000 4000000000 {ANY} - -",
            "2 1 fund 2 12660000000", f"2 2 open 2 12660000000 4000000000 {ANY} - -",
            "1 3 send 1 2 220000000", "2 3 provide 2 4220000000", "3 1 price 560000000", "3 2 liquidate 3 1",
        )
        self.assertEqual(audit_text(market), ["2 0 0 0 6 8247839286 8247839286 8247839285 66", "within 1 of 1"])
        self.assertEqual(exact_shares(market.events or []).share(2), Share(Fraction(0), Fraction(8247839286)))


class ByHand(unittest.TestCase):
    """Values that were worked out by hand."""

    def test_the_base_rate(self) -> None:
        # the square ends with ..962.65 and that times the base with ..034.95: to the nearest, and not down
        self.assertEqual(power_of(999037758833783000, 2), 998076443575627963)
        self.assertEqual(power_of(999037758833783000, 3), 997116053334588035)
        self.assertEqual([power_of(999037758833783000, minutes) for minutes in (0, 1)], [ONE, 999037758833783000])
        self.assertEqual(decayed(ONE, 10**12), 0)
        self.assertEqual((decayed(ONE, 720) + 5 * 10**12) // 10**13, 50000)  # it halves in 12 hours
        self.assertEqual((risen(ONE, 1, 1), risen(0, 1, 4)), (ONE, ONE // 8))
        self.assertEqual((borrow_rate(0), borrow_rate(ONE)), (5 * 10**15, 5 * 10**16))

    def test_the_product(self) -> None:
        self.assertEqual(place_after(Place(ONE, 0, 0), 5, 5), (ONE, 0, 1))
        self.assertEqual(place_after(Place(ONE, 3, 2), 1, 3), (ONE * 2 // 3, 3, 2))
        # 10^18 * 1 / (4 * 10^9) is below 10^9, so the scale rises by one step
        self.assertEqual(place_after(Place(ONE, 0, 0), 4 * 10**9 - 1, 4 * 10**9), (25 * 10**16, 1, 0))
        # and 10^9 * 1 / 10^19 takes three
        self.assertEqual(place_after(Place(10**9, 0, 0), 10**19 - 1, 10**19), (10**17, 3, 0))

    def test_a_gain_over_scales(self) -> None:
        """Each of four scales is rounded down for itself, and the next one is out of reach."""
        deposit = DepositRow(3, ONE, 0, 0, 0)
        sums = {(0, 0): ONE // 2, (0, 1): ONE * 10**9 // 2, (0, 4): ONE * 10**36, (1, 1): ONE}
        self.assertEqual(gain_by(deposit, Place(ONE, 5, 0), 7, sums), 1 + 1)

    def test_the_lower_number_stops_at_0(self) -> None:
        """10 of 16, of which 4 are taken twice: 7.5 and 5 are left, of which the lower number has 7 and 4."""
        events = [Own(1, 0, 1, 10, 0, 0, 10), Own(2, 0, 2, 6, 0, 0, 6), Offset(3, 0, 4, 0, 16), Offset(4, 0, 4, 0, 12)]
        one = depositors(events)[1]
        self.assertEqual((one.low, one.high, one.weight), (4, 6, 20))
        one = depositors([*events, Own(5, 0, 1, 0, 5, 0, 0)])[1]
        self.assertEqual((one.low, one.high), (0, 1))
        self.assertEqual(exact_shares(events).share(1).balance, 5)

    def test_the_limits_of_an_audit(self) -> None:
        """Gwei are told as of the first offset that passes the limit; depositors all."""
        offsets = [Offset(1, 0, 1, coll * 10**18, 9) for coll in (6, 4, 1, 5)]
        self.assertEqual((audit_limit(offsets[:2]), audit_limit(offsets)), (0, 11 * 10**18))
        owners = [Own(1, 0, account, 1, 0, 0, 1) for account in range(1002)]
        self.assertEqual((audit_limit(owners[:1000]), audit_limit(owners)), (0, 1002))
        self.assertEqual(audit_limit([*owners, *offsets]), 11 * 10**18)

    def test_a_ratio_of_just_the_whole_and_just_110(self) -> None:
        """Collateral of as many gwei as the debt has millionths is worth it at 1,000 LUSD for one ether."""
        lines = [f"1 1 fund 1 {10**11}", f"1 2 open 1 8440000000 4000000000 {ANY} - -", f"1 3 open 2 1 2 {ANY} - -"]
        market = Market()
        self.assertEqual([answer(market, line) for line in lines][-1], "no 24 2 1800000000")
        for line in ("1 3 fund 2 42200000000", f"1 4 open 2 8440000000 4000000000 {ANY} - -", "1 5 price 500000000"):
            self.assertTrue(answer(market, line).startswith("ok"))
        # both troves are at just 100 percent, in Recovery Mode: all goes to the other one, though nobody provides
        self.assertEqual(answer(market, "1 6 liquidate 3 1"), "ok 42200000 0 0 4220000000 8397800000 0")

    def test_the_greatest_number(self) -> None:
        market = Market()
        market.clients[1] = KeptReply(NUMBER_MOST - 1, "advance", (7,))
        self.assertEqual(answer(market, f"1 {NUMBER_MOST} fund 1 5"), "ok")
        self.assertEqual(answer(market, f"1 {NUMBER_MOST} take 1 5"), "ok")
        self.assertEqual(answer(market, "1 1 take 1 5"), f"no 70 {NUMBER_MOST}")
        self.assertEqual(answer(market, "? next_number 1"), str(NUMBER_MOST))
        self.assertEqual(answer(market, "? wallet 1"), "5 0")

    def test_a_sum_at_its_most(self) -> None:
        market = market_behind(
            "1 1 fund 1 8440000000", f"1 2 open 1 8440000000 4000000000 {ANY} - -",
            "1 3 fund 2 42200000000", f"1 4 open 2 42200000000 4000000000 {ANY} - -", "1 5 price 500000000",
        )
        start, grown = market.checkpoint(), 4220000000 * ONE // 42200000000
        for more, reply in ((1, f"no 52 {SUM_MOST + 1}"), (0, "ok 42200000 0 0 4220000000 8397800000 0")):
            reached = SUM_MOST - grown + more
            troves = {account: row._replace(mark_debt=reached) for account, row in start.troves.items()}
            market = Market.begun_with(start._replace(sum_debt=reached, troves=troves))
            self.assertEqual(answer(market, "1 6 liquidate 3 1"), reply)

    def test_what_is_no_request(self) -> None:
        for line in (
            "", " ", "?", "? wallet", "? wallet 01", "1 1 fund 1", "1 1 fund 1 5 ", "1 1 fund 1 +5",
            "1 1 fund 1 \u0661", f"1 1 fund 1 {2**64}", "1 1 fund 4294967296 1", "1 1 FUND 1 5",
            "1 1 fund 1 5\r", "1 1 rotate" + " " * 200,
        ):
            with self.subTest(line=line):
                self.assertRaises(NoRequest, read_request, line)
        self.assertEqual(list(run(Market(), ["1 1 fund 1 5", "1 1", "1 2 fund 1 5"])), ["ok", "bad line 2"])
        self.assertEqual(answer(Market(), "1 1 fund 1048576 0"), "no 13 1048576")

    def test_each_refusal_has_the_values_of_its_class(self) -> None:
        market = Market()
        for line, refusal in (
            ("1 1 price 1", refusals.PriceRange(1)), ("1 1 fund 1 0", refusals.AmountZero()),
            ("1 1 take 1 5", refusals.ShortCollateral(5, 0)), ("1 2 take 1 5", refusals.OutOfTurn(1)),
            ("1 1 close 1", refusals.NoTrove(1)), (f"1 1 redeem 1 1 {ANY} - -", refusals.Bootstrap(0, 20160)),
        ):
            found = refusals.read_refusal(answer(market, line).split(" "))
            self.assertEqual((type(found), found.values), (type(refusal), refusal.values))


class OfBytes(InFolder):
    """Files that the model writes, read by `liq.journal`."""

    def test_both_versions_and_a_rotation(self) -> None:
        lines = [
            "1 1 fund 1 9000000000", f"1 2 open 1 9000000000 4000000000 {ANY} 5 -", "1 3 provide 1 7", "2 1 advance 9",
        ]
        for version in (1, 2):
            market = Market(10**18 if version == 1 else 10**19)
            disks = Disks(market, version)
            for line in [*lines, "3 1 rotate", "3 2 take 1 0", "3 2 fund 2 5"]:
                if answer(market, line).startswith("ok"):
                    disks.write(market, read_request(line))
            for side, data in zip(("left", "right"), disks.sides):
                (self.folder / f"{side}.liq").write_bytes(data)
            journal = Journal(self.folder)
            assert journal.earlier and journal.current.checkpoint
            self.assertEqual([disk.version for disk in journal.chain], [version, 2])
            self.assertEqual([command.line for command in journal.earlier.commands], lines)
            self.assertEqual(market_on(journal.current).checkpoint(), market.checkpoint())
            before = market_on(journal.earlier)
            self.assertEqual(answer(before, "3 1 rotate"), "ok 2")
            self.assertEqual(before.checkpoint(), journal.current.checkpoint)
            self.assertEqual(len(checkpoint_bytes(before.checkpoint())), 288 + 20 + 60 + 60 + 3 * 61)


    def test_a_record_that_comes_again(self) -> None:
        market = Market()
        disks = Disks(market)
        for line in ("1 1 fund 1 5", "1 1 fund 1 5"):
            answer(market, line)
            disks.write(market, read_request(line))
        (self.folder / "left.liq").write_bytes(disks.sides[0])
        with self.assertRaises(DamagedFile) as damaged:
            market_on(Journal(self.folder).current)
        self.assertEqual(damaged.exception.record, 2)


class OverTheProgram(OverProgram):
    """The model beside the program."""

    def compared(self, *words: str) -> "subprocess.CompletedProcess[str]":
        command = [sys.executable, str(TOP / "scripts/compare-model"), PROGRAM, *words]
        return subprocess.run(command, stdout=subprocess.PIPE, stderr=subprocess.STDOUT, text=True)

    def test_random_lines_near_every_bound(self) -> None:
        compared = self.compared("--lines", "4000", "--seed", "3")
        self.assertEqual(compared.returncode, 0, compared.stdout)
        self.assertIn("no difference", compared.stdout)

    def test_lines_of_the_first_program(self) -> None:
        lines = (TOP / "crates/liq_main/stdin").read_text().splitlines()
        self.assertEqual(list(run(Market(), lines)), (TOP / "crates/liq_main/stdout").read_text().splitlines())
