"""Decimal text and whole numbers."""
import unittest

from decimal import Decimal

from liq.units import ether, lusd, rate, show_ether, show_lusd, whole, within

from .calls import fives, no_whole_numbers


class Units(unittest.TestCase):
    def test_text_becomes_whole_numbers(self) -> None:
        self.assertEqual(ether("1.5"), 1_500_000_000)
        self.assertEqual(ether(10), 10_000_000_000)
        self.assertEqual(lusd("4000"), 4_000_000_000)
        self.assertEqual(lusd("0.000001"), 1)
        self.assertEqual(rate("0.005"), 5 * 10**15)

    def test_too_many_places_are_an_error(self) -> None:
        self.assertRaises(ValueError, lusd, "0.0000001")
        self.assertRaises(ValueError, ether, "1.0000000000")

    def test_what_is_no_decimal_text_is_an_error(self) -> None:
        for wrong in ("", "-1", "+1", "1e3", ".5", "1.", " 1", "1 ", "1,000", "١"):
            self.assertRaises(ValueError, lusd, wrong)
        for wrong in (1.5, 1.0, True, None):
            self.assertRaises(TypeError, ether, wrong)

    def test_decimals_are_as_their_text(self) -> None:
        self.assertEqual((ether(Decimal("1.5")), lusd(Decimal("1E+3"))), (1_500_000_000, 1_000_000_000))
        self.assertEqual((lusd(Decimal("0.0000010000")), lusd(Decimal("0E-50"))), (1, 0))
        self.assertEqual(rate(Decimal(1) / 8), 125 * 10**15)
        for wrong in ("-1", "NaN", "sNaN", "Infinity", "1E-10", "1E+999999999", "1E-999999999", "-0"):
            self.assertRaises(ValueError, ether, Decimal(wrong))

    def test_whole_numbers_of_every_kind(self) -> None:
        for five, name in fives():
            with self.subTest(name):
                found = [whole(five), within(five, 6), ether(five), lusd(five)]
                self.assertEqual((found, [type(it) for it in found]), ([5, 5, 5 * 10**9, 5 * 10**6], [int] * 4))
                self.assertEqual(show_lusd(five), "0.000005")
                self.assertRaises(ValueError, within, five, 5)
        for wrong, kind in no_whole_numbers():
            with self.subTest(repr(wrong)):
                self.assertRaises(kind, within, wrong, 10)
        self.assertEqual((whole(-3), whole(Decimal(-3)), whole(Decimal(2**70))), (-3, -3, 2**70))

    def test_whole_numbers_become_text(self) -> None:
        self.assertEqual(show_ether(1_500_000_000), "1.5")
        self.assertEqual(show_ether(0), "0")
        self.assertEqual(show_lusd(4_000_000_000), "4000")
        self.assertEqual(show_lusd(-1), "-0.000001")
