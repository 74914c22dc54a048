"""Columns of commands, queries and replies: over the library, and over what stands in for it. They want numpy."""
import importlib.util
import os
import pickle
import subprocess
import sys
import unittest
from typing import Any

from liq import BatchStopped, batch, ether, lusd, refusals
from liq.journal import COMMAND, VERBS
from liq.model.disks import command_bytes
from liq.model.told import generated
from liq.packed import FORMS
from liq.replies import Adjusted, Trove, Wallet

from .calls import fives, no_whole_numbers
from .inmemory import busy_market
from .market import TOP, OverLibrary, OverStandIn

HAS_NUMPY = importlib.util.find_spec("numpy") is not None
if HAS_NUMPY:
    import numpy

OWNERS = 20


class Without(unittest.TestCase):
    """The package without numpy, and before anybody wants it."""

    def run_in(self, text: str) -> str:
        """What a Python of its own prints."""
        places = [str(TOP / "clients/python"), *filter(None, [os.environ.get("PYTHONPATH")])]
        environment = {**os.environ, "PYTHONPATH": os.pathsep.join(places)}
        done = subprocess.run([sys.executable, "-c", text], env=environment, capture_output=True, text=True)
        self.assertEqual(done.stderr, "")
        return done.stdout.strip()

    def test_numpy_is_loaded_by_nobody_who_does_without(self) -> None:
        self.assertEqual(self.run_in("import sys, liq, liq.batch; print('numpy' in sys.modules)"), "False")

    def test_columns_say_what_they_want(self) -> None:
        told = self.run_in("""
import sys
sys.modules["numpy"] = None
from liq import batch
from liq.errors import NoPackage
for call in lambda: batch.fund(1, 5), lambda: batch.queries("trove"), lambda: batch.COMMAND:
    try:
        call()
    except NoPackage as fault:
        print(fault.name, fault)
try:
    batch.NOTHING_OF_THE_KIND
except AttributeError:
    print("no such name")
""")
        self.assertEqual(told.split("\n"),
            ["numpy columns want numpy, which is not there; without it a batch takes bytes"] * 3 + ["no such name"])


class Columns:
    """Batches of rows, of markets that those who derive from them begin."""

    def begin_with_owners(self) -> Any:
        market = self.begin()
        self.assertTrue(batch.accepted(market.next(batch.fund(range(OWNERS), ether(20)))).all())
        self.assertTrue(batch.accepted(market.next(batch.open(range(OWNERS), ether(10), lusd(4000)))).all())
        return market

    def test_each_verb_gives_what_its_typed_call_gives(self) -> None:
        market = busy_market(self.begin())
        for made, call in (
            (batch.price(lusd(800)), lambda it: it.price(lusd(800))), (batch.advance(5), lambda it: it.advance(5)),
            (batch.fund(7, 5), lambda it: it.fund(7, 5)), (batch.take(7, 5), lambda it: it.take(7, 5)),
            (batch.send(2, 3, 5), lambda it: it.send(2, 3, 5)), (batch.open(9, 5, 6), lambda it: it.open(9, 5, 6)),
            (batch.adjust(4, coll_in=5), lambda it: it.adjust(4, coll_in=5)),
            (batch.adjust(4, 1, 2, 3, 4, 5), lambda it: it.adjust(4, 1, 2, 3, 4, 5)),
            (batch.close(4), lambda it: it.close(4)),
            (batch.provide(4, 5), lambda it: it.provide(4, 5)), (batch.withdraw(2, 5), lambda it: it.withdraw(2, 5)),
            (batch.gain_to_trove(3), lambda it: it.gain_to_trove(3)),
            (batch.liquidate(9, 4), lambda it: it.liquidate(9, 4)),
            (batch.liquidate_lowest(9, 2), lambda it: it.liquidate_lowest(9, 2)),
            (batch.claim(1), lambda it: it.claim(1)),
            (batch.redeem(3, lusd(1900)), lambda it: it.redeem(3, lusd(1900))),
            (batch.commands("rotate", 1, (), ()), lambda it: it.rotate()),
        ):
            self.assertEqual(len(made), 1)
            fork, other = market.fork(), market.fork()
            (told,) = fork.next(made)
            try:
                row = call(other.client(1))
                self.assertEqual(batch.columns(told.reshape(1), list(VERBS)[told["which"] - 1]), row)
                self.assertIsNone(batch.refusal(told))
            except refusals.Refusal as refusal:
                self.assertEqual((type(batch.refusal(told)), batch.refusal(told).values),
                    (type(refusal), refusal.values))
            self.assertEqual(fork.save(), other.save())
            self.assertEqual(market.preview(made)[0], market.preview(made.copy())[0])

    def test_columns_of_accepted_ones(self) -> None:
        market = self.begin_with_owners()
        borrows = numpy.full(OWNERS, lusd(500))
        borrows[3] = lusd(10**6)
        replies = market.next(batch.adjust(numpy.arange(OWNERS), borrow=borrows))
        self.assertEqual(batch.accepted(replies).tolist(), [at != 3 for at in range(OWNERS)])
        adjusted = batch.columns(replies, "adjust")
        self.assertIsInstance(adjusted, Adjusted)
        self.assertEqual((len(adjusted.debt), int(adjusted.debt[0])),
            (OWNERS - 1, lusd(4220) + lusd(500) + lusd("2.5")))
        self.assertEqual(len(batch.columns(replies, "open").debt), 0)
        self.assertIsInstance(batch.refusal(replies[3]), refusals.RatioLow)

    def test_rows_of_many_accounts(self) -> None:
        market = self.begin_with_owners()
        asked = batch.queries("trove", [5, 99, 7])
        told = market.query(asked)
        self.assertEqual(batch.has_row(told, "trove").tolist(), [True, False, True])
        rows = batch.columns(told, "trove", asked)
        self.assertIsInstance(rows, Trove)
        self.assertEqual(list(zip(*map(numpy.ndarray.tolist, rows))), [market.trove(5), market.trove(7)])
        self.assertEqual(batch.ratios(rows, lusd(1000)).round(6).tolist(), [2.369668] * 2)
        self.assertIsNone(batch.columns(told, "trove").account)
        asked = batch.queries("wallet", range(3))
        wallets = batch.columns(market.query(asked), "wallet", asked)
        self.assertEqual([Wallet(*map(int, row)) for row in zip(*wallets)], market.wallets(range(3)))
        self.assertEqual(batch.columns(market.query(batch.queries("system")), "system").troves.tolist(), [OWNERS])
        self.assertEqual(market.query(batch.queries("next_number", [1, 2]))["values"][:, 0].tolist(),
            [2 * OWNERS + 1, 1])

    def test_copies_are_whole(self) -> None:
        """Whatever numpy makes of an array of commands is one."""
        mask = numpy.arange(20) % 2 == 0
        for change in (
            lambda it: it.copy(), lambda it: it[mask], lambda it: it[::2], lambda it: it[::-1],
            lambda it: it.take(range(20)),
            lambda it: numpy.concatenate([it, it]), lambda it: numpy.sort(it, order="account"),
            lambda it: numpy.resize(it, 40),
            lambda it: it.astype(it.dtype.newbyteorder()), lambda it: pickle.loads(pickle.dumps(it)),
            lambda it: numpy.stack([it])[0],
        ):
            market, copied = self.begin(), change(batch.fund(range(20), 5))
            self.assertTrue(batch.accepted(market.next(copied)).all())
            self.assertEqual(copied["number"].tolist(), list(range(1, len(copied) + 1)))
            again = self.begin()
            self.assertTrue(batch.accepted(again.do(copied)).all())
            self.assertEqual(again.save(), market.save())

    def test_what_is_no_column(self) -> None:
        for wrong, kind in (
            (1.5, TypeError), ([1, 2.0], TypeError), (True, TypeError), (numpy.array([1.0]), TypeError),
            (numpy.float64(1), TypeError), ("1", TypeError),
            (-1, ValueError), ([1, -1], ValueError), (numpy.array([-1]), ValueError), (2**64, ValueError),
        ):
            self.assertRaises(kind, batch.fund, 1, wrong)
        for wrong in (2**20, [2**20], numpy.array([2**20])):
            self.assertRaises(ValueError, batch.fund, wrong, 1)
            self.assertRaises(ValueError, batch.fund, 1, 1, client=wrong)
            self.assertRaises(ValueError, batch.queries, "trove", wrong)
        self.assertRaises(ValueError, batch.fund, [1, 2, 3], [1, 2])
        self.assertEqual(batch.fund(1, [10**19, 1])["amounts"][:, 0].tolist(), [10**19, 1])
        self.assertEqual(len(batch.fund([], 5)), 0)

    def test_columns_of_whole_numbers_of_every_kind(self) -> None:
        for five, name in fives():
            with self.subTest(name):
                made = batch.fund(five, [five, 2**63], client=numpy.array([five, 6], object))
                self.assertEqual(made["account"].tolist(), [5, 5])
                self.assertEqual((made["amounts"][:, 0].tolist(), made["client"].tolist()), ([5, 2**63], [5, 6]))
        for wrong, kind in no_whole_numbers():
            with self.subTest(repr(wrong)):
                self.assertRaises(kind, batch.fund, 1, [1, wrong])
                self.assertRaises(kind, batch.fund, 1, numpy.array([1, wrong], object))
        with self.assertRaises(TypeError) as refused:
            batch.fund(1, numpy.array([1.5]))
        self.assertIn("a column of float64 has no whole numbers: ether(), lusd()", str(refused.exception))

    def test_arrays_that_are_no_commands(self) -> None:
        market = self.begin()
        made = batch.fund(range(4), 5)
        self.assertRaises(TypeError, market.do, made["amounts"])
        self.assertRaises(TypeError, market.do, batch.queries("trove", [1]))
        self.assertRaises(TypeError, market.query, made)
        self.assertRaises(ValueError, market.do, made.reshape(2, 2))
        read_only = numpy.frombuffer(made.tobytes(), batch.COMMAND)
        self.assertRaises(ValueError, market.next, read_only)
        self.assertTrue(batch.accepted(market.next(read_only.copy())).all())
        self.assertEqual(len(market.next(made[:0])), 0)

    def test_a_batch_that_stops(self) -> None:
        market = self.begin()
        made = batch.fund(range(4), 5)
        made["kind"][2] = 77
        with self.assertRaises(BatchStopped) as stopped:
            market.next(made)
        fault = stopped.exception
        self.assertEqual((fault.index, fault.why, batch.accepted(fault.replies).tolist()), (2, 0, [True, True]))
        self.assertEqual((made["number"].tolist(), market.next_number(1)), ([1, 2, 0, 0], 3))

    def test_a_row_of_zeros_is_none(self) -> None:
        with self.assertRaises(BatchStopped):
            self.begin().next(numpy.zeros(1, batch.COMMAND))

    def test_forms(self) -> None:
        """The type of rows is the command that the journal's format has, and so is the packing of typed calls."""
        self.assertEqual((batch.COMMAND.itemsize, batch.REPLY.itemsize, batch.QUERY.itemsize), (96, 96, 8))
        for command in generated(3, 300):
            data = command_bytes(command)
            row = numpy.frombuffer(data, batch.COMMAND)[0]
            named = [row[name] for name in ("kind", "client", "number", "account", "other")]
            self.assertEqual([*map(int, named), *row["amounts"].tolist(), int(row["before"]), int(row["after"])],
                list(COMMAND.unpack(data)))
            self.assertFalse(row["gap"].any() or row["rest"].any())


class Forms(unittest.TestCase):
    """What typed calls pack, beside the journal's format."""

    def test_each_verb(self) -> None:
        for verb, letters in VERBS.items():
            form, data = FORMS[verb], bytearray(96)
            form.pack_into(data, 0, form.kind, 9, 8, *range(1, len(letters) + 1))
            kind, client, number, *fields = COMMAND.unpack(data)
            self.assertEqual((list(VERBS)[kind - 1], client, number), (verb, 9, 8))
            used = iter(range(1, len(letters) + 1))
            for letter, size in (("a", 2), ("v", 5), ("h", 2)):
                here, fields = fields[:size], fields[size:]
                wanted = [next(used) for _ in range(letters.count(letter))]
                self.assertEqual(here, wanted + [0] * (size - len(wanted)))


@unittest.skipUnless(HAS_NUMPY, "there is no numpy")
class ColumnsInMemory(Columns, OverLibrary):
    """Over the library."""


@unittest.skipUnless(HAS_NUMPY, "there is no numpy")
class ColumnsBeside(Columns, OverStandIn):
    """Over what stands in for it."""
