"""Rows as frames of pandas and as CSV: no whole number is rounded."""
import csv
import dataclasses
import importlib.util
import io
import subprocess
import sys
import unittest
from decimal import Decimal
from typing import Any, NamedTuple

from liq import batch
from liq.frames import fields_of, frame, table, write_csv
from liq.replies import BY_QUERY, BY_VERB, Adjusted, Redeemed, System, Trove, Wallet, places_of, told_fields

from .inmemory import busy_market
from .market import TOP, InFolder, OverLibrary, OverStandIn

HAS_PANDAS = importlib.util.find_spec("pandas") is not None
if HAS_PANDAS:
    import numpy
    import pandas


class Numbered(NamedTuple):
    """A row."""

    number: Any


@dataclasses.dataclass
class Noted:
    """A row as a dataclass."""

    hour: int
    price: float


class Tables(InFolder):
    """Rows without any package."""

    def test_rows_of_each_kind(self) -> None:
        rows = [Wallet(1, 2, 3), None, {"account": 4, "note": "x"}, Noted(5, 6.5)]
        names, found = table(rows)
        self.assertEqual(names, ["account", "coll", "lusd", "note", "hour", "price"])
        self.assertEqual(found, [
            {"account": 1, "coll": 2, "lusd": 3}, {"account": 4, "note": "x"}, {"hour": 5, "price": 6.5}])
        self.assertEqual(table(Noted(5, 6.5)), (["hour", "price"], [{"hour": 5, "price": 6.5}]))
        self.assertEqual((table([]), table(iter([None]))), (([], []), ([], [])))

    def test_columns_in_the_place_of_rows(self) -> None:
        rows = [{"number": 1, "name": "a"}, {"number": 2**70, "name": None}]
        self.assertEqual(table({"number": [1, 2**70], "name": ("a", None)}), (["number", "name"], rows))
        self.assertEqual(table(Numbered(range(2))), (["number"], [{"number": 0}, {"number": 1}]))
        self.assertEqual(table({"a": [1], "b": 2}), (["a", "b"], [{"a": [1], "b": 2}]))
        self.assertEqual((table({}), table({"a": []})), (([], [{}]), (["a"], [])))
        self.assertRaises(ValueError, table, {"a": [1], "b": [2, 3]})

    def test_what_is_no_row(self) -> None:
        for wrong in (5, "text", (1, 2), [1], Noted):
            self.assertRaises(TypeError, fields_of, wrong)
            self.assertRaises(TypeError, table, [wrong])

    def test_csv_has_each_digit(self) -> None:
        rows = [Numbered(2**70), Numbered(Decimal("1.10")), Numbered('a "word", two'), {"other": 2**53 + 1}]
        write_csv(rows, self.folder / "rows.csv")
        text = (self.folder / "rows.csv").read_text()
        self.assertEqual(text.split("\n")[:3], ["number,other", f"{2**70},", "1.10,"])
        self.assertEqual(list(csv.reader(io.StringIO(text)))[3:], [['a "word", two', ""], ["", str(2**53 + 1)]])
        told = io.StringIO()
        write_csv(rows, told)
        write_csv(rows, str(self.folder / "again.csv"))
        self.assertEqual([told.getvalue(), (self.folder / "again.csv").read_text()], [text, text])

    def test_each_field_has_a_unit_or_is_a_count(self) -> None:
        counts = {"minute", "fee_minute", "mode", "troves", "stakes", "stake", "records", "count", "generation"}
        for row in {*BY_VERB.values(), *BY_QUERY.values()}:
            self.assertEqual(set(told_fields(row)) - set(places_of(row)), counts & set(row._fields), row)
        self.assertEqual((places_of(Redeemed)["fee"], places_of(Adjusted)["fee"]), (9, 6))

    def test_without_pandas(self) -> None:
        told = subprocess.run([sys.executable, "-c", """
import sys
sys.modules["pandas"] = None
from liq.frames import frame
from liq.errors import NoPackage
try:
    frame([])
except NoPackage as fault:
    print(fault.name, "|", fault)
"""], cwd=TOP / "clients/python", capture_output=True, text=True)
        self.assertEqual((told.stdout, told.stderr), (
            "pandas | a frame wants pandas, which is not there; write_csv() and the rows themselves do without\n", ""))

    def test_pandas_is_loaded_by_nobody_who_does_without(self) -> None:
        told = subprocess.run([sys.executable, "-c", "import sys, liq, liq.frames; print('pandas' in sys.modules)"],
            cwd=TOP / "clients/python", capture_output=True, text=True)
        self.assertEqual((told.stdout, told.stderr), ("False\n", ""))


@unittest.skipUnless(HAS_PANDAS, "there is no pandas")
class Frames(unittest.TestCase):
    """Frames of rows."""

    def check(self, numbers: Any, kind: str) -> None:
        column = frame([Numbered(number) for number in numbers])["number"]
        self.assertEqual((str(column.dtype), column.tolist()), (kind, list(numbers)))
        if kind == "object":
            self.assertEqual([type(it) for it in column], [type(it) for it in numbers])

    def test_whole_numbers_stay_whole(self) -> None:
        self.check([0, 2**53 + 1], "int64")
        self.check([-(2**63), 2**63 - 1], "int64")
        self.check([0, 2**63], "uint64")
        self.check([1, 2**64 - 1], "uint64")
        self.check([1, 2**64], "object")
        self.check([-1, 2**63], "object")
        self.check([-(2**63) - 1, 0], "object")
        self.check([2**127 + 1, 2**64 + 1], "object")
        self.check([2**53 + 1, None], "object")
        self.check([True, False], "bool")
        self.check([True, 2**53 + 1], "object")

    def test_floats_and_whole_numbers(self) -> None:
        self.check([1.5, 2.5], "float64")
        self.check([1, 2.5], "float64")
        self.check([2**53, 2.5], "float64")
        self.check([2**53 + 1, 2.5], "object")
        self.check([Decimal("1.10"), Decimal(2)], "object")
        self.check(["a", "b"], "object")

    def test_numbers_of_numpy(self) -> None:
        column = frame([Numbered(numpy.int64(5)), Numbered(numpy.uint64(2**64 - 1)), Numbered(2**64)])["number"]
        self.assertEqual((column.tolist(), {type(it) for it in column}), ([5, 2**64 - 1, 2**64], {int}))

    def test_rows_of_a_market(self) -> None:
        rows = [Trove(1, 2, 3, 4), None, Trove(5, 6, 7, 8)]
        made = frame(rows)
        self.assertEqual((list(made), made.to_numpy().tolist()), (list(Trove._fields), [[1, 2, 3, 4], [5, 6, 7, 8]]))
        self.assertEqual(made.set_index("account").coll[5], 6)
        self.assertEqual((len(frame([])), len(frame([None]))), (0, 0))
        self.assertEqual(frame(System(*range(10))).to_numpy().tolist(), [list(range(10))])
        self.assertEqual(frame(iter([{"a": 1}, {"b": 2}])).to_numpy().tolist(), [[1, None], [None, 2]])

    def test_scaled(self) -> None:
        """A ratio of whole numbers wraps from 9.3 ether at a price of 1,000; of ether and LUSD it doesn't."""
        rows = [Trove(1, 10 * 10**9, 2000 * 10**6, 5), None, Trove(2, 10**19, 2**63 + 1, 6)]
        made = frame(rows, scaled=True)
        self.assertEqual(made.to_dict("list"), {
            "account": [1, 2], "coll": [10.0, 1e10], "debt": [2000.0, (2**63 + 1) / 10**6], "stake": [5, 6]})
        self.assertEqual((made.coll * 1000 / made.debt)[0], 5)
        self.assertEqual(str(made.stake.dtype), "int64")
        self.assertLess((frame(rows[:1]).coll * (1000 * 10**6))[0], 0)
        fees = frame([Redeemed(10**6, 10**9, 10**9, 10**18), Adjusted(10**9, 10**6, 10**6)], scaled=True)
        self.assertEqual((fees.fee.tolist(), fees.base[0], fees.drawn[0]), ([1.0, 1.0], 1.0, 1.0))
        self.assertEqual(frame(System(*[10**18] * 10), scaled=True).iloc[0].to_dict()["base_rate"], 1.0)

    def test_scaled_by_a_type_that_is_said(self) -> None:
        columns = Trove(None, numpy.array([10**9], ">u8"), [10**6], range(1))
        row = {"coll": 10**9, "debt": 10**6, "stake": 0}
        for rows, of in ((columns, None), (columns._asdict(), Trove), (row, Trove), ([row], Trove)):
            made = frame(rows, scaled=True, of=of).to_dict("list")
            self.assertEqual(made, {"coll": [1.0], "debt": [1.0], "stake": [0]})
        for wrong in ({"coll": 1}, [{"coll": 1}], [Numbered(1)], {"coll": [1]}, [Noted(1, 2.0)]):
            self.assertRaises(TypeError, frame, wrong, scaled=True)

    def test_columns_of_no_rows(self) -> None:
        for scaled in (False, True):
            for rows in ([], [None, None], iter([])):
                self.assertEqual(list(frame(rows, scaled, of=Trove)), list(Trove._fields))
        self.assertEqual((list(frame([], of=Noted)), list(frame([]))), (["hour", "price"], []))
        self.assertEqual({str(kind) for kind in frame([], of=Trove).dtypes}, {"int64"})
        self.assertEqual(str(frame([], scaled=True, of=Trove).coll.dtype), "float64")

    def test_columns(self) -> None:
        turned, own = numpy.array([3, 4], ">u8"), pandas.Series([5, 6], dtype="Int64")
        made = frame({"number": [1, 2**70], "other": turned, "own": own})
        self.assertEqual(made.to_numpy().tolist(), [[1, 3, 5], [2**70, 4, 6]])
        self.assertEqual(list(map(str, made.dtypes)), ["object", "uint64", "Int64"])


class OfBatches:
    """Frames of columns, of markets that those who derive from them begin."""

    def test_columns_of_a_batch(self) -> None:
        market = busy_market(self.begin())
        asked = batch.queries("trove", [*market.trove_accounts(), 77])
        made = frame(batch.columns(market.query(asked), "trove", asked))
        pandas.testing.assert_frame_equal(made, frame(market.troves(market.trove_accounts())), check_dtype=False)
        self.assertEqual(list(frame(batch.columns(market.query(asked), "trove"))), ["coll", "debt", "stake"])
        written = [io.StringIO(), io.StringIO()]
        write_csv(batch.columns(market.query(asked), "trove", asked), written[0])
        write_csv(market.troves(market.trove_accounts()), written[1])
        self.assertEqual(*(it.getvalue() for it in written))
        commands = batch.fund([1, 2], [2**63, 5])
        made = frame({"amount": commands["amounts"][:, 0], "account": commands["account"]})
        self.assertEqual(made.to_numpy().tolist(), [[2**63, 1], [5, 2]])


@unittest.skipUnless(HAS_PANDAS, "there is no pandas")
class OfBatchesInMemory(OfBatches, OverLibrary):
    """Over the library."""


@unittest.skipUnless(HAS_PANDAS, "there is no pandas")
class OfBatchesBeside(OfBatches, OverStandIn):
    """Over what stands in for it."""
