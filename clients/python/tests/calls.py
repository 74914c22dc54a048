"""The cases of a market, whichever it is: a run of the program, or the engine in this process. Each verb once, with its
values by name; what is refused; what is not sent."""
import importlib.util
import unittest
from decimal import Decimal
from typing import Any, Iterator, Tuple

from liq import ANY_FEE, refusals
from liq.replies import Adjusted, Advanced, Claimed, Closed, Deposit, Done, Liquidated, LowestLiquidated, Moved
from liq.replies import NextGeneration, Opened, Pools, Provided, Redeemed, System, Trove, Wallet, Withdrawn


HAS_NUMPY = importlib.util.find_spec("numpy") is not None


class Five:
    """A whole number that is no int."""

    def __index__(self) -> int:
        return 5


def fives() -> Iterator[Tuple[Any, str]]:
    """The number 5 as simulators have it, each with its name."""
    yield Five(), "what has __index__"
    yield Decimal(5), "a Decimal"
    yield Decimal("5.000"), "a Decimal with zeros behind its point"
    yield Decimal("0.5E1"), "a Decimal with an exponent"
    if HAS_NUMPY:
        import numpy

        for kind in (numpy.int8, numpy.uint8, numpy.int64, numpy.uint64):
            yield kind(5), str(kind)
        yield numpy.arange(6)[5], "an item of an array"
        yield numpy.array(5), "an array of no dimension"


def no_whole_numbers() -> Iterator[Tuple[Any, type]]:
    """What is no whole number, and the error that it is."""
    yield from ((wrong, TypeError) for wrong in (1.5, 1.0, "5", True, None, b"5", 5j))
    for text in ("0.5", "NaN", "Infinity", "-1", "1E+999999999", "1E-999999999"):
        yield Decimal(text), ValueError
    if HAS_NUMPY:
        import numpy

        for wrong in (numpy.float64(5), numpy.float32(5), numpy.bool_(True), numpy.arange(2)):
            yield wrong, TypeError
        yield numpy.int64(-5), ValueError


class Cases(unittest.TestCase):
    """Cases over a market, which those who derive from them begin."""

    def begin(self) -> Any:
        """A new market."""
        raise NotImplementedError


class EveryVerb(Cases):
    """The market of docs/REFERENCE.md, whose replies stand there."""

    def setUp(self) -> None:
        super().setUp()
        self.market = self.begin()
        self.one, self.two, self.three, self.nine = (self.market.client(client) for client in (1, 2, 3, 9))

    def borrow(self) -> None:
        one, two, three, nine = self.one, self.two, self.three, self.nine
        self.assertEqual(nine.price(10**9), Done())
        self.assertEqual(nine.advance(20160), Advanced(minute=20160))
        for client, ether in ((one, 20), (two, 20), (three, 60)):
            self.assertEqual(client.fund(client.client, ether * 10**9), Done())
        self.assertEqual(one.take(1, 10**9), Done())
        self.assertEqual(one.open(1, coll=10**10, lusd=4 * 10**9), Opened(debt=4220000000, fee=20000000))
        self.assertEqual(two.open(2, 2 * 10**10, 6 * 10**9, hints=(1, None)), Opened(debt=6230000000, fee=30000000))
        self.assertEqual(three.open(3, 5 * 10**10, 3 * 10**9, bound=ANY_FEE), Opened(debt=3215000000, fee=15000000))
        adjusted = one.adjust(1, coll_in=2 * 10**9, borrow=5 * 10**8)
        self.assertEqual(adjusted, Adjusted(coll=12 * 10**9, debt=4722500000, fee=2500000))
        self.assertEqual(one.send(1, 2, 10**9), Done())
        self.assertEqual(two.close(2), Closed(repaid=6030000000, coll=20000000000))
        self.assertEqual(two.open(2, 2 * 10**10, 6 * 10**9), Opened(debt=6230000000, fee=30000000))

    def liquidate(self) -> None:
        one, two, nine = self.one, self.two, self.nine
        self.assertEqual(two.provide(2, 5 * 10**9), Provided(amount=5000000000, gain=0))
        self.assertEqual(two.withdraw(2, 5 * 10**8), Withdrawn(paid=500000000, gain=0))
        nine.price(4 * 10**8)
        self.assertEqual(nine.liquidate(9, 1), Liquidated(
            gas=60000000, pool_debt=4500000000, pool_coll=11377448385, spread_debt=222500000, spread_coll=562551615,
            surplus=0))
        self.assertEqual(two.gain_to_trove(2), Moved(gain=11377448384, coll=31538177416))
        nine.price(10**9)
        one.fund(1, 2 * 10**10)
        self.assertEqual(one.open(1, 12 * 10**9, 6 * 10**9), Opened(debt=6230000000, fee=30000000))
        nine.price(560000000)
        self.assertEqual(nine.liquidate_lowest(9, 5), LowestLiquidated(count=1, gas=60000000, pool_debt=0, pool_coll=0))

    def redeem(self) -> None:
        one, two, nine = self.one, self.two, self.nine
        nine.price(10**9)
        self.assertEqual(one.open(1, 3 * 10**9, 2 * 10**9), Opened(debt=2210000000, fee=10000000))
        self.assertEqual(two.redeem(2, 2010000000), Redeemed(
            redeemed=2010000000, drawn=2010000000, fee=121608746, base=55501863868562750))
        self.assertEqual(one.claim(1), Claimed(coll=990000000))

    def ask(self) -> None:
        market = self.market
        self.assertEqual(market.wallet(2), Wallet(account=2, coll=1888391254, lusd=460000000))
        trove = Trove(account=2, coll=36133806392, debt=8691458239, stake=31286743018)
        self.assertEqual((market.trove(2), market.troves([2, 77])), (trove, [trove, None]))
        self.assertIsNone(market.trove(77))
        self.assertIsNone(market.deposit(2))
        self.assertEqual(market.pools(), Pools(
            active_coll=81538177416, active_debt=9508571428, default_coll=12341822583, default_debt=6388928572,
            reserve=400000000, surplus=0, fee_coll=121608746, fee_lusd=137500000, pool_lusd=0, pool_coll=1))
        self.assertEqual(market.system(), System(
            price=1000000000, minute=20160, base_rate=55501863868562750, fee_minute=20160, mode=0, troves=2,
            stakes=81286743018, coll=93879999999, debt=15897500000, records=27))
        self.assertFalse(market.system().recovery)
        self.assertEqual(market.next_number(2), 9)

    def test_each_verb_is_accepted_and_names_its_values(self) -> None:
        self.borrow()
        self.liquidate()
        self.redeem()
        self.ask()
        self.assertEqual(self.nine.rotate(), NextGeneration(generation=2))
        self.assertEqual(self.market.system().records, 0)

    def test_recovery_mode_and_a_deposit(self) -> None:
        one, three = self.one, self.three
        for account, coll in ((1, 8440000000), (2, 12660000000)):
            one.fund(account, coll)
            one.open(account, coll, 4 * 10**9)
        one.provide(2, 3 * 10**9)
        one.price(560000000)
        self.assertTrue(self.market.system().recovery)
        self.assertEqual(self.market.deposit(2), Deposit(account=2, balance=3 * 10**9, gain=0))
        with self.assertRaises(refusals.PoolTooSmall) as refused:
            three.liquidate(3, 1)
        self.assertEqual((refused.exception.total, refused.exception.debt), (3 * 10**9, 4220000000))
        self.assertEqual(three.next_number, 1)


class Refused(Cases):
    """What is refused, or not sent."""

    def test_a_refusal_is_its_class_and_leaves_the_number(self) -> None:
        client = self.begin().client(5)
        with self.assertRaises(refusals.ShortCollateral) as refused:
            client.take(1, 5)
        self.assertEqual((refused.exception.need, refused.exception.have), (5, 0))
        client.fund(1, 5)
        self.assertEqual(client.next_number, 2)

    def test_what_is_no_whole_number_never_leaves(self) -> None:
        market = self.begin()
        client = market.client(1)
        self.assertRaises(TypeError, client.fund, 1, 1.5)
        self.assertRaises(TypeError, client.fund, 1, "5")
        self.assertRaises(TypeError, client.fund, True, 5)
        self.assertRaises(ValueError, client.fund, 1, -1)
        self.assertRaises(ValueError, client.fund, 2**20, 1)
        self.assertRaises(ValueError, client.fund, 1, 2**64)
        self.assertRaises(ValueError, client.open, 1, 10**10, 4 * 10**9, hints=(2**20, None))
        self.assertRaises(TypeError, client.open, 1, 10**10, 4 * 10**9, hints=("1", None))
        for hints in (), (1,), (1, 2, 3):
            self.assertRaises(ValueError, client.open, 1, 10**10, 4 * 10**9, hints=hints)
            self.assertRaises(ValueError, client.gain_to_trove, 1, hints=hints)
        client.fund(1, 10**18)
        client.fund(2**20 - 1, 1)
        for ask in (market.wallet, market.trove, market.deposit, market.next_number, market.client):
            for account, kind in ((2**20, ValueError), (-1, ValueError), (1.0, TypeError), ("1", TypeError)):
                self.assertRaises(kind, ask, account)
        self.assertEqual(market.wallet(2**20 - 1).coll, 1)

    def test_whole_numbers_of_every_kind(self) -> None:
        """Each is taken as an account, a client, an amount, a price and a hint, and rows have an int of Python."""
        for five, name in fives():
            with self.subTest(name):
                market = self.begin()
                client = market.client(five)
                client.price(five * 10**8 if isinstance(five, Decimal) else 5 * 10**8)
                self.assertEqual((client.advance(five), client.next_number), (Advanced(5), 3))
                client.fund(five, 10**11)
                client.open(five, 10**11, 4 * 10**9, hints=(five, None))
                client.provide(five, five)
                client.send(five, 6, lusd=five)
                client.adjust(five, coll_in=0, coll_out=five)
                self.assertEqual(market.next_number(five), 8)
                self.assertEqual((market.wallet(five).lusd, market.deposit(five)), (4 * 10**9 - 10, Deposit(5, 5, 0)))
                rows = [market.wallet(five), market.trove(five), *market.troves([five]), *market.wallets(iter([five]))]
                self.assertEqual([type(number) for row in rows for number in row], [int] * 14)
                self.assertEqual({row.account for row in rows}, {5})

    def test_a_number_that_is_none_says_what_to_do(self) -> None:
        market = self.begin()
        client = market.client(1)
        for wrong, kind in no_whole_numbers():
            with self.subTest(repr(wrong)):
                for call in (
                    lambda: client.fund(1, wrong), lambda: client.fund(wrong, 1), lambda: client.price(wrong),
                    lambda: market.wallet(wrong), lambda: market.troves([1, wrong]), lambda: market.client(wrong),
                    lambda: market.next_number(wrong),
                ):
                    self.assertRaises(kind, call)
                if wrong is not None:
                    self.assertRaises(kind, client.open, 1, 10**10, 4 * 10**9, hints=(wrong, 1))
        with self.assertRaises(TypeError) as refused:
            client.fund(1, 1.5)
        self.assertIn('1.5 is a float, which rounds: write it as text, ether("1.5")', str(refused.exception))
        self.assertRaises(ValueError, client.open, 1, 10**10, 4 * 10**9, hints=(1,))
        self.assertEqual((client.next_number, market.system().records), (1, 0))

    def test_lines_of_ones_own_may_name_any_account(self) -> None:
        """The program refuses one that is out of range; the typed calls don't come to that."""
        self.assertEqual(self.begin().ask("1 1 fund 1048576 5"), ["no", "13", "1048576"])

    def test_many_accounts_at_once(self) -> None:
        market = self.begin()
        client = market.client(1)
        for account in range(50):
            client.fund(account, account + 1)
        self.assertEqual([wallet.coll for wallet in market.wallets(range(50))], list(range(1, 51)))
        self.assertEqual((market.troves([1, 2]), market.deposits(iter([3])), market.wallets([])),
            ([None, None], [None], []))
        self.assertRaises(ValueError, market.wallets, [1, 2**20])
        self.assertRaises(TypeError, market.troves, [1, 2.0])

    def test_a_value_of_128_bits(self) -> None:
        """The refusal has products of amounts."""
        market = self.begin()
        client = market.client(1)
        client.fund(1, 10**18)
        with self.assertRaises(refusals.RatioLow) as refused:
            client.open(1, 10**18, 9 * 10**18)
        self.assertGreater(min(refused.exception.left, refused.exception.right), 2**64)
