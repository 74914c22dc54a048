"""What a lender asks: ratios, fees, troves by ratio, and what became of whom."""
import importlib.util
import random
import unittest
from decimal import Decimal
from fractions import Fraction
from typing import Any, List

from liq import ether, lender, lusd
from liq.journal import Journal
from liq.lender import Event, Unwatched, Watch, borrow_fee, by_ratio, events, model_of, percent, rates, ratio
from liq.lender import redeem_fee
from liq.model import Market as Model
from liq.model import answer
from liq.refusals import Refusal
from liq.replies import System, Trove
from liq.words import ReportedTrove

from .inmemory import busy_market, with_records
from .market import OverLibrary, OverProgram, OverStandIn
from .modelled import crash

HAS_NUMPY = importlib.util.find_spec("numpy") is not None


class Ratios(unittest.TestCase):
    """Ratios, and the order by them."""

    def test_percent(self) -> None:
        trove = Trove(1, ether(10), lusd(4220), ether(10))
        self.assertEqual(str(ratio(trove, lusd(1000))), "236.966824")  # 236.96682464..
        self.assertEqual(str(ratio(trove, lusd(1000), places=2)), "236.96")
        self.assertEqual(str(ratio(trove, Decimal(lusd(422)), places=0)), "100")
        self.assertEqual(str(ratio(trove, lusd(422))), "100.000000")
        self.assertEqual(ratio(Trove(1, 1, 0, 1), 5), Decimal("Infinity"))
        system = System(lusd(1000), 0, 0, 0, 0, 1, 1, ether(10), lusd(5000), 1)
        self.assertEqual(ratio(system, system.price), 200)
        for wrong in (1000.0, "1000"):
            self.assertRaises(TypeError, ratio, trove, wrong)
        for wrong in (-1, 41):
            self.assertRaises(ValueError, ratio, trove, 1000, wrong)

    def test_it_is_below_a_bound_exactly_where_the_ratio_is(self) -> None:
        chance = random.Random(1)
        for _ in range(2000):
            debt, price = chance.randrange(2 * 10**9, 2**chance.randrange(32, 64)), chance.randrange(10**8, 10**12)
            coll = debt * 110 * 10**9 // (100 * price) + chance.randrange(3)
            found = ratio(Trove(1, coll, debt, 1), price)
            exact = Fraction(coll * price * 100, debt * 10**9)
            self.assertEqual((found < 110, found <= exact < found + Decimal("0.000001").as_integer_ratio()[0]
                + 1), (exact < 110, True))
            self.assertEqual(Fraction(found), Fraction(int(exact * 10**6), 10**6))

    def test_the_order(self) -> None:
        rows = [Trove(7, 3, 2, 1), None, Trove(2, 2**64 - 1, 2**64 - 2, 1), Trove(1, 2**64 - 2, 2**64 - 3, 1),
            Trove(5, 6, 4, 1), Trove(4, 1, 1, 1)]
        ordered = by_ratio(rows, 10**9)
        self.assertEqual([row.account for row in ordered], [4, 2, 1, 5, 7])
        self.assertEqual((ordered[0].ratio, ordered[-1].ratio, ordered[-1].coll), (100, 150, 3))
        self.assertEqual(by_ratio([], 1), [])
        self.assertEqual(by_ratio([ReportedTrove(*row) for row in rows if row], 10**9), ordered)
        chance = random.Random(2)
        rows = [Trove(at, chance.randrange(1, 50), chance.randrange(1, 50), 1) for at in range(500)]
        wanted = sorted(rows, key=lambda row: (Fraction(row.coll, row.debt), row.account))
        self.assertEqual([row.account for row in by_ratio(rows, 5)], [row.account for row in wanted])

    def test_rates_in_percent(self) -> None:
        self.assertEqual([str(percent(it)) for it in (5 * 10**15, 0, 1, 10**18, 123456789012345678)],
            ["0.5", "0", "1E-16", "100", "12.3456789012345678"])
        self.assertRaises(ValueError, percent, -1)


class Fees:
    """Fees beside what commands are replied."""

    def test_fees_of_this_minute(self) -> None:
        market = busy_market(self.begin())
        client = market.client(1)
        client.price(lusd(1000))
        for step, minutes in enumerate((1, 60, 600, 5000)):
            system = market.system()
            fee = redeem_fee(system, lusd(1500))
            told = client.redeem(4 + step, lusd(1500))
            self.assertEqual(told.redeemed, lusd(1500))
            self.assertTrue(fee - 10 <= told.fee <= fee, (fee, told.fee))
            self.assertEqual(rates(market.system()).base, told.base)
            client.advance(minutes)
            system = market.system()
            self.assertLess(rates(system).base, told.base)
            self.assertEqual(rates(system).redeem, rates(system).base + 5 * 10**15)
            client.fund(50 + step, ether(20))
            wanted = lusd(2000) + step
            fee = borrow_fee(system, wanted)
            self.assertEqual(client.open(50 + step, ether(20), wanted).fee, fee)
            self.assertGreaterEqual(fee, lusd(10))
        client.price(lusd(180))
        system = market.system()
        self.assertTrue(system.recovery)
        self.assertEqual((rates(system).borrow, borrow_fee(system, lusd(2000))), (0, 0))
        client.fund(60, ether(1000))
        self.assertEqual(client.open(60, ether(1000), lusd(2000)).fee, 0)

    def test_without_debt(self) -> None:
        system = self.begin().system()
        self.assertEqual(rates(system), (0, 5 * 10**15, 5 * 10**15))
        self.assertRaises(ValueError, redeem_fee, system, 5)
        self.assertRaises(TypeError, borrow_fee, system, 5.0)


class Events:
    """What became of whom."""

    def test_a_liquidation_that_is_spread_in_part(self) -> None:
        market = self.begin()
        for account in (1, 2, 3):
            market.client(1).fund(account, ether(10 * account))
            market.client(1).open(account, ether(10 * account), lusd(4000))
        market.client(2).provide(2, lusd(3000))
        watch = Watch(market)
        client = watch.client(5)
        client.price(lusd(460))
        told = client.liquidate(9, 1)
        found = watch.events()
        front = (9, 0, lusd(460))
        self.assertEqual(found, [
            Event(*front, "liquidated", 9, 1, ether(10), lusd(4220), told.gas, 0),
            Event(*front, "offset", 9, 1, told.pool_coll, lusd(3000), 0, 0),
            Event(*front, "spread", 9, 1, told.spread_coll, lusd(1220), 0, 0),
        ])
        self.assertEqual((told.gas, found[1].coll + found[2].coll + told.gas), (ether("0.05"), ether(10)))
        self.assertRaises(Refusal, client.liquidate, 9, 3)
        self.assertEqual(watch.events(), found)

    def test_a_surplus(self) -> None:
        market = self.begin()
        client = market.client(1)
        for account, coll, borrowed in ((1, "8.44", 4000), (2, "12.66", 4000), (3, "33", 12000)):
            client.fund(account, ether(coll))
            client.open(account, ether(coll), lusd(borrowed))
        client.provide(3, lusd(9000))
        client.price(lusd(560))
        watch = Watch(market)
        told = watch.client(1).liquidate(9, 1)
        liquidated, offset = watch.events()
        self.assertEqual((liquidated.event, liquidated.surplus, offset.event), ("liquidated", told.surplus, "offset"))
        self.assertEqual(liquidated.coll, liquidated.gas + offset.coll + liquidated.surplus)
        self.assertGreater(told.surplus, 0)

    def test_a_redemption_closes_troves(self) -> None:
        market = self.begin()
        client = market.client(1)
        client.advance(20160)
        for account in range(1, 5):
            client.fund(account, ether(10 * account))
            client.open(account, ether(10 * account), lusd(4000))
        client.send(3, 4, lusd(4000))
        watch = Watch(market)
        told = watch.client(2).redeem(4, lusd(5000))
        closed, redeemed = watch.events()
        self.assertEqual((closed.event, closed.owner, closed.by, closed.debt, closed.coll, closed.surplus),
            ("closed", 1, 4, lusd(4020), ether("4.02"), ether("5.98")))
        self.assertEqual((redeemed.event, redeemed.owner, redeemed.debt, redeemed.surplus),
            ("redeemed", 2, lusd(980), 0))
        self.assertEqual((told.redeemed, told.drawn), (closed.debt + redeemed.debt, closed.coll + redeemed.coll))
        self.assertEqual((market.trove(1), market.trove(2).debt), (None, lusd(3240)))

    def test_many_troves_beside_the_replies(self) -> None:
        """Each event beside the sums of the replies, and the troves that are there behind them."""
        market, chance = self.begin(), random.Random(4)
        watch = Watch(market)
        client = watch.client(3)
        client.advance(20160)
        for account in range(40):
            client.fund(account, ether(20))
            client.open(account, ether(20), chance.randrange(lusd(5000), lusd(9000)))
            if account % 3 == 0:
                client.provide(account, lusd(2500))
        there, totals, wanted = set(range(40)), [0, 0, 0, 0], [0, 0, 0, 0]
        for step in range(25):
            client.price(lusd(900 - 20 * step))
            for call in (lambda: client.liquidate_lowest(99, 3), lambda: client.redeem(1, lusd(50))):
                try:
                    told = call()
                except Refusal:
                    continue
                if hasattr(told, "redeemed"):
                    wanted[3] += told.redeemed
                else:
                    wanted = [*(a + b for a, b in zip(wanted, (told.gas, told.pool_debt, told.pool_coll))), wanted[3]]
        found = watch.events()
        for event in found:
            at = {"liquidated": 0, "offset": 1, "spread": None, "redeemed": 3, "closed": 3}[event.event]
            if event.event == "liquidated":
                totals[0] += event.gas
            elif event.event == "offset":
                totals[1] += event.debt
                totals[2] += event.coll
            elif at == 3:
                totals[3] += event.debt
            if event.event in ("liquidated", "closed"):
                there.remove(event.owner)
        self.assertEqual(totals, wanted)
        self.assertEqual(there, {row.account for row in market.troves(range(40)) if row})
        self.assertTrue({"liquidated", "offset", "spread", "redeemed"} <= {event.event for event in found})
        self.check_sums(found)

    def check_sums(self, found: List[Event]) -> None:
        """What was liquidated is what was taken over and paid."""
        for at, event in enumerate(found):
            if event.event == "liquidated":
                behind = found[at + 1 : at + 3]
                parts = [it for it in behind if it.event in ("offset", "spread") and it.owner == event.owner]
                self.assertEqual(event.coll, event.gas + event.surplus + sum(part.coll for part in parts))
                self.assertEqual(event.debt, sum(part.debt for part in parts))

    def test_commands_that_did_not_come_through(self) -> None:
        market = busy_market(self.begin())
        watch = Watch(market)
        market.client(1).price(lusd(200))
        watch.client(2).liquidate_lowest(9, 1)
        self.assertRaises(Unwatched, watch.events)

    def test_a_model_is_the_market(self) -> None:
        market = busy_market(self.begin())
        model = model_of(market)
        self.assertEqual(answer(model, "? system"), " ".join(map(str, market.system())))
        self.assertEqual(answer(model, "? pools"), " ".join(map(str, market.pools())))
        answer(model, f"1 {market.next_number(1)} fund 1 5")
        self.assertNotEqual(answer(model, "? wallet 1").split(" ")[0], str(market.wallet(1).coll))
        self.assertRaises(TypeError, model_of, model)


class InMemory:
    """Of a market in memory alone."""

    def test_a_batch(self) -> None:
        market = busy_market(self.begin())
        before = model_of(market)
        lines = [f"9 1 price {lusd(200)}", "9 2 liquidate_lowest 8 2", "? pools", "9 3 take 1 5"]
        market.lines("\n".join(lines))
        found = list(events(before, lines))
        self.assertEqual(sum(event.event == "liquidated" for event in found), 2)
        self.assertEqual(answer(before, "? pools"), " ".join(map(str, market.pools())))
        self.assertRaises(ValueError, list, events(before, bytes(96)))
        self.assertRaises(ValueError, list, events(before, bytes(95)))
        self.assertEqual(list(events(before, b"")), [])

    @unittest.skipUnless(HAS_NUMPY, "there is no numpy")
    def test_rows_of_a_batch(self) -> None:
        import numpy
        from liq import batch

        market = busy_market(self.begin())
        before, again = model_of(market), model_of(market)
        calls = numpy.concatenate([batch.price(lusd(200)), batch.liquidate_lowest(8, 2), batch.take(1, ether(10**6))])
        replies = market.next(calls)
        found = list(events(before, calls))
        count = int(batch.columns(replies, "liquidate_lowest").count[0])
        self.assertEqual(sum(event.event == "liquidated" for event in found), count)
        self.assertEqual(found, list(events(again, calls.astype(batch.COMMAND).tobytes())))

    def test_a_full_market_that_rotates(self) -> None:
        market = lender.Market.load(with_records(busy_market(self.begin()).save(), 999_999))
        watch = Watch(market)
        client = watch.client(4)
        client.price(lusd(200))
        client.liquidate_lowest(9, 1)
        found = watch.events()
        self.assertEqual((found[0].event, found[0].record, market.system().records), ("liquidated", 1, 1))


class FeesBeside(OverStandIn, Fees):
    """Over what stands in for the library."""


class EventsBeside(OverStandIn, Events):
    """Over what stands in for the library."""


class InMemoryBeside(OverStandIn, InMemory):
    """Over what stands in for the library."""


class FeesInMemory(OverLibrary, Fees):
    """Over the library."""


class EventsInMemory(OverLibrary, Events):
    """Over the library."""


class InMemoryOverLibrary(OverLibrary, InMemory):
    """Over the library."""


class EventsOfARun(OverProgram, Events):
    """Over a run of the program."""

    def begin(self) -> Any:
        return self.service()


class OfFiles(OverStandIn):
    """The events of a journal."""

    def test_the_commands_of_a_generation(self) -> None:
        made = crash(self.folder / "market")
        found = list(events(Model(), Journal(made.folder).current.commands))
        self.assertGreater(sum(event.event == "liquidated" for event in found), 5)
        self.assertGreater(sum(event.event == "redeemed" for event in found), 5)
        left = set(range(1, 31)) - {event.owner for event in found if event.event in ("liquidated", "closed")}
        self.assertEqual(left, set(made.market.troves))
