"""The page, and what it says is liquidated at which price."""
import contextlib
import io
import json
import random
import re
import shutil
import unittest
from pathlib import Path
from typing import Callable, List, Sequence, Tuple
from unittest import mock

from liq import Refusal, Service, page, risk, words
from liq.ends import Usage
from liq.refusals import NotLiquidatable
from liq.replies import Pools, System
from liq.risk import Tried, choose_prices
from liq.words import Report, ReportedDeposit, ReportedTrove

from . import shown
from .market import InFolder, OverProgram, status_of

TROVES = [ReportedTrove(1, 10**10, 4220000000, 10**10), ReportedTrove(2, 10**11, 4220000000, 10**11)]


def market_of(price: int = 10**9, pool: int = 3 * 10**9) -> page.Market:
    system = System(price, 0, 0, 0, 0, 2, 11 * 10**10, 11 * 10**10, 8440000000, 5)
    pools = Pools(11 * 10**10, 8440000000, 0, 0, 4 * 10**8, 0, 0, 4 * 10**7, pool, 0)
    deposits = [ReportedDeposit(2, pool, 0)]
    tried = [Tried(price, int(price < 464200000), 4220000000 * int(price < 464200000)), Tried(10**10, 0, 0)]
    return page.Market(Report(system, 10**18, 0, 0, 0, TROVES, deposits), pools, [2, 1], tried)


def run_main(main: Callable[[List[str]], int], *words: str) -> str:
    """What a command writes that ends with 0."""
    with contextlib.redirect_stdout(io.StringIO()) as told:
        assert main(list(words)) == 0
    return told.getvalue()


class Pages(unittest.TestCase):
    def rows_of(self, shown: page.Market, table: str) -> List[List[str]]:
        """The cells of a table, as they are shown."""
        _, _, rest = page.page(shown).partition(f'<table id="{table}">')
        body = rest.partition("<tbody>")[2].partition("</tbody>")[0]
        return [
            [" ".join(re.sub(r"<[^>]+>", " ", cell).split()) for cell in re.findall(r"<t[hd].*?</t[hd]>", row, re.S)]
            for row in re.findall(r"<tr.*?</tr>", body, re.S)]

    def test_what_it_shows(self) -> None:
        text = " ".join(re.sub(r"<[^>]+>", " ", page.page(market_of())).split())
        for shown in ("1,000.00", "Normal Mode", "1,303.31 %", "3,000.00"):
            self.assertIn(shown, text)
        self.assertEqual(self.rows_of(market_of(), "by_ratio"), [
            ["1", "10.0000", "4,220.00", "236.96 %", "464.19"],
            ["2", "100.0000", "4,220.00", "2,369.66 %", "no price"],
        ])
        self.assertEqual(self.rows_of(market_of(), "deposits"), [["2", "3,000.00", "100.00 %", "0.0000"]])

    def test_the_list_is_shown_from_its_end(self) -> None:
        self.assertEqual(self.rows_of(market_of(), "by_list"), [
            ["1", "1", "10.0000", "4,220.00", "10,000,000,000", "236.96 %"],
            ["2", "2", "100.0000", "4,220.00", "100,000,000,000", "2,369.66 %"],
        ])

    def test_troves_that_can_be_liquidated_now_are_marked(self) -> None:
        below, at = market_of(price=464199999), market_of(price=464200000)
        self.assertIn('<tr class="now">', page.page(below))
        self.assertNotIn('<tr class="now">', page.page(at))
        self.assertEqual(self.rows_of(below, "by_ratio")[0][4], "now, 464.19")
        for shown, count in ((below, 1), (at, 0)):
            told = page.told(shown)
            self.assertEqual((told["taken_now"], told["marked_now"]), (count, count))
            text = " ".join(page.page(shown).split())
            self.assertIn(f'there are <data value="{count}">{count}</data>. Each one', text)
            self.assertIn(f'takes <data value="{count}">{count}</data> now.', text)

    def test_each_price_that_was_tried_is_a_dot_and_a_row(self) -> None:
        text = page.page(market_of())
        for part, width in (("wide", page.WIDE), ("narrow", page.NARROW)):
            picture = text.partition(f'<div class="{part}">')[2].partition("</div>")[0]
            self.assertEqual((picture.count("<circle "), picture.count(f' width="{width}"')), (4, 2))
        self.assertIn("Each of the 2 dots was tried on a copy", text)
        self.assertEqual(self.rows_of(market_of(), "tried"), [["1,000.00", "0", "0.00"], ["10,000.00", "0", "0.00"]])

    def test_nothing_is_drawn_where_no_trove_can_be_liquidated(self) -> None:
        text = page.page(market_of()._replace(tried=()))
        self.assertNotIn("<circle ", text)
        self.assertNotIn('"#risk"', text)
        self.assertEqual(self.rows_of(market_of()._replace(tried=()), "tried"), [])

    def test_an_empty_market(self) -> None:
        empty = shown.an_empty_market()
        text = page.page(empty)
        self.assertIn("no debt", text)
        self.assertEqual(text.count('<p class="soft">None.</p>'), 3)
        self.assertEqual((page.told(empty)["ratio"], page.told(empty)["deposits"]), (None, []))

    def test_of_many_rows_the_first_are_shown(self) -> None:
        with mock.patch.object(page, "ROWS_MOST", 1):
            text = page.page(market_of())
            self.assertEqual([row[0] for row in self.rows_of(market_of(), "by_ratio")], ["1"])
            self.assertEqual(len(page.told(market_of())["by_ratio"]), 2)
        self.assertEqual(text.count("1 more are left out."), 2)

    def test_numbers_are_cut_off_and_never_rounded(self) -> None:
        for form, value, expected in (
            ("ether", 1_999_999_999, "1.9999"), ("lusd", 1_999_999_999, "1,999.99"), ("percent", 10_999, "109.99 %"),
            ("rate", 5_559_999_999_999_999, "0.5559 %"), ("rate", 10**18, "100.0000 %"),
            ("count", 10**9, "1,000,000,000"), ("price", 10**8 - 1, "no price"), ("price", 10**8, "100.00"),
            ("mode", "recovery", "Recovery Mode"),
        ):
            self.assertEqual(page.FORMS[form](value), expected)
        uneven = market_of()._replace(pools=market_of().pools._replace(pool_lusd=3 * 10**9 + 1))
        self.assertEqual(page.told(uneven)["deposits"][0]["part"], 9999)

    def test_json_has_all_that_the_rules_tell(self) -> None:
        told = json.loads(page.as_json(market_of()))
        self.assertEqual((told["liq_page"], told["mode"], told["ratio"], told["records"]), (1, "normal", 130331, 5))
        self.assertEqual(told["by_ratio"], [
            {"account": 1, "coll": 10**10, "debt": 4220000000, "ratio": 23696, "at_most": 464199999, "now": False},
            {"account": 2, "coll": 10**11, "debt": 4220000000, "ratio": 236966, "at_most": 46419999, "now": False},
        ])
        self.assertEqual(told["pool"], {
            "lusd": 3 * 10**9, "coll": 0, "p": 10**18, "scale": 0, "epoch": 0, "sum": 0})

    def test_it_is_the_same_each_time_and_draws_by_its_own_hand(self) -> None:
        with mock.patch("liq.chart.plot", side_effect=AssertionError("a library is asked")):
            self.assertEqual(page.page(market_of()), page.page(market_of()))


class Command(InFolder):
    """The words that the command takes."""

    def run_page(self, *words: str) -> Tuple[int, str, str]:
        with contextlib.redirect_stdout(io.StringIO()) as told, contextlib.redirect_stderr(io.StringIO()) as said:
            status = status_of(page.main, *words)
        return status, told.getvalue(), said.getvalue()

    def test_help(self) -> None:
        status, told, _ = self.run_page("--help")
        self.assertEqual(status, 0)
        for said in ("usage: python3 -m liq.page", "--json", "--seconds N", "FOLDER", "examples:", "page.html"):
            self.assertIn(said, told)

    def test_words_that_are_not_understood(self) -> None:
        cases: List[List[str]] = [
            [], ["a", "b"], ["--seconds", "0", "a"], ["--seconds", "x", "a"], ["--seconds", str(10**10), "a"],
            ["--jso", "a"],
        ]
        for words in cases:
            status, told, said = self.run_page(*words)
            self.assertEqual((status, told, said[:7]), (2, "", "usage: "))

    def test_a_folder_without_a_journal(self) -> None:
        status, told, said = self.run_page(str(self.folder))
        self.assertEqual((status, told), (1, ""))
        self.assertRegex(said, "^page: no journal in .*\n$")
        status, told, said = self.run_page("--json", str(self.folder))
        self.assertEqual((status, said), (1, ""))
        self.assertRegex(json.loads(told)["refused"], "^no journal in ")

    def test_page_and_json(self) -> None:
        with mock.patch.object(page, "read_market", lambda folder, bar: market_of()):
            self.assertEqual(self.run_page("x"), (0, page.page(market_of()), ""))
            self.assertEqual(self.run_page("--json", "x"), (0, page.as_json(market_of()), ""))


class Prices(OverProgram):
    def check(self, name: str, opened: Sequence[Tuple[int, int]]) -> None:
        """Each trove can be liquidated at the price that is told, and not at the next one."""
        with Service(self.folder / name, create=True) as market:
            client = market.client(1)
            for account, (coll, lusd) in enumerate(opened, 1):
                client.fund(account, coll)
                client.open(account, coll, lusd)
            client.provide(1, 4 * 10**9)
            system, pools = market.system(), market.pools()
            troves = []
            for account in range(1, len(opened) + 1):
                trove = market.trove(account)
                assert trove
                troves.append(ReportedTrove(account, trove.coll, trove.debt, trove.stake))
        for row in troves:
            price = page.liquidation_price(row, system, pools.pool_lusd)
            assert price is not None
            self.assertEqual([self.liquidated(name, row.account, price + more) for more in (0, 1)], [True, False])

    def liquidated(self, name: str, account: int, price: int) -> bool:
        copy = self.folder / f"{name}-{account}-{price}"
        copy.mkdir()
        for side in ("left", "right"):
            (copy / f"{side}.liq").write_bytes((self.folder / name / f"{side}.liq").read_bytes())
        with Service(copy) as market:
            client = market.client(2)
            client.price(price)
            try:
                client.liquidate(3, account)
            except Refusal:
                return False
        return True

    def test_in_normal_mode(self) -> None:
        self.check("normal", [(10**10, 4 * 10**9), (3 * 10**10, 4 * 10**9), (3 * 10**10, 9 * 10**9)])

    def test_in_recovery_mode(self) -> None:
        opened = [(8 * 10**9, 4 * 10**9), (13 * 10**9, 45 * 10**8), (9 * 10**9, 35 * 10**8), (10**10, 2 * 10**9)]
        self.check("recovery", opened)

    def test_the_last_trove_stays(self) -> None:
        alone = market_of().report.system._replace(troves=1)
        self.assertIsNone(page.liquidation_price(TROVES[0], alone, 10**9))

    def test_of_a_folder(self) -> None:
        with self.service() as market:
            client = market.client(1)
            for account in (1, 2):
                client.fund(account, 10**10)
                client.open(account, 10**10, account * 2 * 10**9)
        try:
            found = page.read_market(self.folder / "market")
        except Usage:
            self.skipTest("the program does not have the word report")
        self.assertEqual(found.order, [1, 2])
        self.assertEqual(found.report, words.report(self.folder / "market"))
        self.assertIn('<data value="4220000000">4,220.00</data>', page.page(found))


class Chosen(unittest.TestCase):
    """Which prices are tried."""

    def chosen(self, steps: List[Tuple[int, int]], low: int, high: int, now: int, most: int = 64) -> List[Tried]:
        """Of a market in which `liquidate_lowest` takes one trove more below each of some prices, of so much debt."""
        self.asked = 0

        def at(price: int) -> Tried:
            self.asked += 1
            fallen = [debt for below, debt in steps if price < below]
            return Tried(price, len(fallen), sum(fallen))

        return choose_prices(at, low, high, now, most)

    def test_both_ends_and_now_are_among_them(self) -> None:
        found = [each.price for each in self.chosen([(500, 3)], 100, 900, 333)]
        self.assertEqual((found[0], found[-1], 333 in found, found == sorted(set(found))), (100, 900, True, True))

    def test_a_step_is_closed_in_upon(self) -> None:
        found = self.chosen([(500_123_456, 7)], 10**8, 10**9, 10**9)
        (gap,) = [(a.price, b.price) for a, b in zip(found, found[1:]) if a.troves != b.troves]
        self.assertTrue(gap[0] < 500_123_456 <= gap[1])
        self.assertLessEqual(gap[1] - gap[0], 9 * 10**5)
        self.assertLess(self.asked, 30)

    def test_no_more_are_tried_than_stated(self) -> None:
        steps = [(10**8 + 10**6 * step, step) for step in range(900)]
        for most in (16, 64):
            self.assertEqual((len(self.chosen(steps, 10**8, 10**9, 10**9, most)), self.asked), (most, most))

    def test_one_price_alone(self) -> None:
        self.assertEqual(self.chosen([], 10**8, 10**8, 10**8), [Tried(10**8, 0, 0)])

    def test_a_bar_shows_how_many_are_done(self) -> None:
        bar = mock.Mock()
        with mock.patch.object(risk, "liquidated", lambda file, room, client, price, program: int(price < 500)):
            found = risk.try_prices(Path("left.liq"), [7, 9], 1, 100, 900, 333, bar=bar)
        self.assertEqual((found[0].debt, found[-1].debt), (7, 0))
        self.assertEqual(bar.begin.call_args_list, [mock.call("prices", 64)])
        self.assertEqual(bar.add.call_count, len(found))

    def test_fewer_in_a_large_market(self) -> None:
        for troves, most in ((2, 64), (10**4, 64), (31_250, 32), (10**5, 16), (2**20, 16)):
            with mock.patch.object(risk, "choose_prices") as choose:
                risk.try_prices(Path("left.liq"), [1] * troves, 1, 1, 2, 1)
            self.assertEqual(choose.call_args[0][-1], most)


class Liquidated(OverProgram):
    """The prices that were tried, beside copies of the files themselves on which one trove after the other goes."""

    def one_by_one(self, name: str, price: int) -> Tuple[int, int, Refusal]:
        """How many troves go, the debt that they had, and the refusal of the next one."""
        copy = self.folder / "one-by-one"
        shutil.copytree(self.folder / name, copy)
        try:
            with Service(copy) as market:
                client = market.client(77)
                client.price(price)
                before = {account: trove.debt for account, trove in enumerate(market.troves(range(100))) if trove}
                try:
                    while True:
                        client.liquidate_lowest(5, 1)
                except Refusal as refusal:
                    gone = [account for account, trove in enumerate(market.troves(range(100))) if not trove]
                    debts = [before[account] for account in gone if account in before]
                    return len(debts), sum(debts), refusal
        finally:
            shutil.rmtree(copy)

    def drawn(self, name: str) -> page.Market:
        try:
            return page.read_market(self.folder / name)
        except Usage:
            self.skipTest("the program does not have the word report")

    def random_market(self, seed: int) -> System:
        """Owners of all ratios, some of them depositors; then prices, liquidations, and a total ratio from 105 to 190
        percent."""
        chance = random.Random(seed)
        with Service(self.folder / str(seed), create=True) as market:
            client = market.client(1)

            def attempt(call: Callable[..., object], *words: int) -> None:
                try:
                    call(*words)
                except Refusal:
                    pass

            for account in range(1, chance.randrange(4, 40)):
                client.fund(account, 10**11)
                coll = chance.randrange(10**10, 5 * 10**10)
                borrowed = max(18 * 10**8, int(coll / chance.choice((1.2, 1.4, 1.7, 2.5, 6.0))))
                attempt(client.open, account, coll, borrowed)
                if chance.random() < 0.5:
                    attempt(client.provide, account, chance.randrange(1, borrowed))
            for _ in range(chance.randrange(8)):
                client.price(chance.randrange(600, 1100) * 10**6)
                attempt(client.liquidate_lowest, 0, chance.randrange(1, 4))
                attempt(client.withdraw, chance.randrange(1, 40), chance.randrange(10**9))
            found = market.system()
            client.price(min(10**12, max(10**8, int(chance.uniform(1.05, 1.9) * found.debt * 10**9 / found.coll))))
            return market.system()

    def test_in_fifty_markets_of_both_modes(self) -> None:
        modes = []
        for seed in range(50):
            system = self.random_market(seed)
            modes.append(system.recovery)
            with mock.patch.object(risk, "TRIED_MOST", 16):
                shown = self.drawn(str(seed))
            self.assertIn(system.price, [each.price for each in shown.tried])
            for each in shown.tried[seed % 4 :: 4]:
                count, debt, _ = self.one_by_one(str(seed), each.price)
                self.assertEqual((each.price, each.troves, each.debt), (each.price, count, debt))
        self.assertGreater(min(modes.count(False), modes.count(True)), 10)

    def test_one_trove_ends_recovery_mode(self) -> None:
        """Sixty owners at 150.43 percent. A little lower each of many can be liquidated by itself, and one or two are:
        then all together are above 150 percent again."""
        chance = random.Random(3)
        with self.service() as market:
            client = market.client(1)
            for account in range(1, 61):
                client.fund(account, 10**12)
                net = chance.randrange(4000, 12000) * 10**6
                debt = net + net // 200 + 2 * 10**8
                client.open(account, int(debt * chance.uniform(1.24, 1.78) * 1000 / 480), net)
            for account in range(1, 6):
                client.provide(account, min(4202 * 10**6, market.wallet(account).lusd))
            system = market.system()
            price = -(-15043 * system.debt * 10**9 // (10_000 * system.coll))
            client.price(price)
        shown = self.drawn("market")
        lower = price * 1496 // 1504
        by_itself = [trove.debt for trove in shown.report.troves if (shown.prices[trove.account] or 0) >= lower]
        self.assertGreater(len(by_itself), 20)
        count, debt, last = self.one_by_one("market", lower)
        self.assertIn(count, (1, 2))
        self.assertGreater(sum(by_itself), 10 * debt)
        self.assertIsInstance(last, NotLiquidatable)
        self.assertEqual(shown.taken_now, 0)
        for each in shown.tried[::8]:
            self.assertEqual((each.troves, each.debt), self.one_by_one("market", each.price)[:2])
        near = [each for each in shown.tried if lower <= each.price]
        self.assertLessEqual(max(each.troves for each in near), count)
