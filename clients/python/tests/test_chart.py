"""Charts: the same call over all kinds of tables, drawn by the own hand and by matplotlib."""
import contextlib
import dataclasses
import importlib
import importlib.util
import io
import math
import os
import pickle
import re
import runpy
import subprocess
import sys
import unittest
import warnings
from decimal import Decimal
from fractions import Fraction
from typing import Any, Dict, List, NamedTuple, Tuple, Type
from unittest import mock
from xml.dom import minidom

from liq.chart import MATPLOTLIB, OWN, Panel, Picture, chart, ticks
from liq.drawn import thinned

from .market import TOP, OverStandIn

HAS = {name: importlib.util.find_spec(name) is not None for name in ("numpy", "pandas", "matplotlib")}
PANELS = [
    Panel("Debt and pool", {"debt of all troves": "debt", "in the pool": "pool"}, unit="LUSD"),
    Panel("Ratio", ["ratio"], zero=False, dots=True, unit="percent"),
]
SCRIPT = """
import sys
from liq.chart import Panel, chart
sys.stdout.write(chart("A < B", "hours", [Panel("LUSD", {"debt": [(0, 1), (5, 3)]}), Panel("x", {"y": [(2, 7)]})],
                       by=sys.argv[1]))
"""


class Row(NamedTuple):
    """A row, or columns."""

    hour: Any
    debt: Any
    pool: Any
    ratio: Any


@dataclasses.dataclass
class Held:
    """A row."""

    hour: Any
    debt: Any
    pool: Any
    ratio: Any


def rows(count: int = 12) -> List[Dict[str, Any]]:
    return [
        {"hour": 3 * hour, "debt": 10**6 - 999 * hour, "pool": 10**5 * hour % 170001, "ratio": 150 + hour / 7}
        for hour in range(count)]


def drawn(data: Any, **how: Any) -> Picture:
    return chart("A market", "time", PANELS, data, "hour", across_unit="hours", **how)


def paths(picture: str) -> List[str]:
    """The paths of the lines, without those of the names."""
    return [path for path in re.findall(r'<path class="line-\d" d="([^"]*)"', picture) if "h22" not in path]


class Own(unittest.TestCase):
    def test_it_is_well_formed_and_says_what_it_is(self) -> None:
        lines = {"debt": [(0, 1), (5, 3)], "po&ol": [(0, 2), (5, 0)]}
        made = chart("a < b", "hours", [Panel("LUSD", lines)])
        root = minidom.parseString(made).documentElement
        self.assertEqual((root.getAttribute("role"), root.getAttribute("aria-label")), ("img", "a < b"))
        texts = [node.firstChild.data for node in root.getElementsByTagName("text") if node.firstChild]
        for said in ("a < b", "LUSD", "debt", "po&ol", "hours", "0", "5"):
            self.assertIn(said, texts)
        self.assertNotRegex(made, r"style=|<style|<script|href|url\(")
        self.assertEqual(chart("", "", [Panel("LUSD", lines)], label="all").count("all"), 2)
        self.assertIn('aria-label="LUSD, x"', chart("", "", [Panel("LUSD", lines), Panel("x", {"x": [(1, 1)]})]))

    def test_headings_have_their_units(self) -> None:
        made = drawn(rows())
        for said in ("Debt and pool (LUSD)", "Ratio (percent)", "time (hours)", "debt of all troves", "in the pool"):
            self.assertIn(f">{said}</text>", made)

    def test_it_is_a_text_that_a_notebook_shows(self) -> None:
        made = drawn(rows())
        self.assertEqual((made.drawn_by, made._repr_svg_(), type(made._repr_svg_())), (OWN, made, str))
        again = pickle.loads(pickle.dumps(made))
        self.assertEqual((again, again.drawn_by, type(again)), (made, OWN, Picture))

    def test_where_a_point_stands(self) -> None:
        """By hand: from 0 to 10 across, and from 0 to 4 up over 160 points."""
        (path,) = paths(chart("", "", [Panel("", {"line": [(0, 0), (10, 4), (5, 1)]})], width=412))
        places = [tuple(map(float, pair.split(" "))) for pair in path[1:].split("L")]
        (left, bottom), (right, top), (middle, quarter) = places
        self.assertEqual((right, bottom - top), (412 - 16, 160.0))
        self.assertEqual((middle, bottom - quarter), ((left + right) / 2, 40.0))

    def test_a_gap_is_no_line(self) -> None:
        for gap in (None, math.nan, Decimal("NaN")):
            made = chart("", "", [Panel("", {"line": [(0, 1), (1, 2), (2, gap), (3, 4), (4, gap)]})])
            self.assertEqual([path.count("M") for path in paths(made)], [2])
            self.assertEqual(made.count("<circle"), 1)
        with self.assertRaises(ValueError):
            chart("", "", [Panel("", {"line": [(None, 1)]})])

    def test_a_line_of_gaps_alone(self) -> None:
        self.assertEqual(paths(chart("", "", [Panel("", {"line": [(0, None), (1, None)]})])), [])

    def test_twenty_five_lines_differ(self) -> None:
        made = chart("", "", [Panel("", {str(at): [(0, at), (1, at)] for at in range(25)})])
        strokes = set(re.findall(r'<path class="line-\d" d="M[^h"]*"( fill[^/]*)/>', made))
        self.assertEqual(len(strokes), 25)

    def test_a_line_of_very_many_points(self) -> None:
        points = [(at, math.sin(at / 9000) + (9 if at == 37777 else 0)) for at in range(60_000)]
        made = chart("", "", [Panel("", {"line": points})], width=240)
        places = [tuple(map(float, pair.split(" "))) for pair in paths(made)[0][1:].split("L")]
        self.assertTrue(1000 < len(places) < 8000, len(places))
        highest = min(places, key=lambda place: place[1])
        left, right = places[0][0], places[-1][0]
        self.assertAlmostEqual(highest[0], left + (right - left) * 37777 / 60_000, delta=0.2)
        self.assertEqual(
            list(thinned([(0.01, 5), (0.0, 9), (0.02, 1), (0.0, 7), (0.0, 4), (0.0, 6), (1, 1)])),
            [(0.01, 5), (0.0, 9), (0.02, 1), (0.0, 6), (1, 1)])

    def test_all_of_it_is_within_its_width(self) -> None:
        long = chart("t" * 999, "x" * 999, [Panel("h" * 999, {"n" * 999: [(0, 0), (10**9, 10**9)]})], width=240)
        self.assertIn('aria-label="' + "t" * 999, long)
        self.assertRegex(long, ">n{27}\u2026<")
        for width, made in ((240, long), *((width, drawn(rows(), width=width)) for width in (240, 360, 760, 4000))):
            places = [float(x) for x in re.findall(r' (?:x|cx)="([\d.]+)"', made)]
            places += [float(x) for path in paths(made) for x in re.findall(r"[ML]([\d.]+) ", path)]
            self.assertLessEqual(max(places), width - 16)
            for x, anchor, text in re.findall(r'<text[^>]* x="([\d.]+)"[^>]*anchor="(\w+)"[^>]*>([^<]*)<', made):
                end = float(x) + len(text) * 6.4 * {"start": 1, "middle": 0.5, "end": 0}[anchor]
                self.assertLessEqual(end, width, text)
        for width in (239, 4001):
            self.assertRaises(ValueError, drawn, rows(), width=width)

    def test_round_numbers(self) -> None:
        self.assertEqual(ticks(0, 10), [0, 2, 4, 6, 8, 10])
        self.assertEqual(ticks(3, 3), [3.0, 3.2, 3.4000000000000004, 3.6, 3.8000000000000003, 4.0])
        self.assertEqual((ticks(130, 219)[0], ticks(130, 219)[-1]), (120, 220))
        for low, high in ((1e20, 1e20), (-1e300, 1e300), (0, 1e-300), (1e18, 1e18 + 256)):
            marks = ticks(low, high)
            self.assertTrue(marks[0] <= low and high <= marks[-1] and len(marks) < 16, (low, high, marks))

    def test_lines_that_are_flat_great_small_or_below_0(self) -> None:
        pairs: List[List[Any]] = [[7, 7], [10**20, 10**20], [-5, -3], [1e-9, 3e-9], [0, 0], [-1e300, 1e300]]
        for values in pairs:
            for zero in (True, False):
                made = chart("", "", [Panel("", {"line": list(enumerate(values))}, zero=zero)])
                self.assertNotRegex(made, "nan|inf")


class Tables(unittest.TestCase):
    """Whatever the table is, the picture is the same."""

    def test_rows_and_columns(self) -> None:
        told = rows()
        as_points = [
            panel._replace(lines={
                name: [(row["hour"], row[column]) for row in told]
                for name, column in (panel.lines.items() if isinstance(panel.lines, dict) else [("ratio", "ratio")])})
            for panel in PANELS]
        expected = chart("A market", "time", as_points, across_unit="hours")
        columns = {name: [row[name] for row in told] for name in told[0]}
        for data in (
            told, tuple(told), iter(told), [Row(**row) for row in told], [Held(**row) for row in told], columns,
            Row(**columns),
        ):
            self.assertEqual(drawn(data), expected)

    @unittest.skipUnless(HAS["pandas"], "there is no pandas")
    def test_frames(self) -> None:
        pandas: Any = importlib.import_module("pandas")
        frame = pandas.DataFrame(rows())
        self.assertEqual(drawn(frame), drawn(rows()))
        indexed = frame.set_index("hour")
        self.assertEqual(chart("A market", "time", PANELS, indexed, across_unit="hours"), drawn(rows()))
        frame["pool"] = frame["pool"].astype("Int64")
        frame.loc[4, "pool"] = pandas.NA
        with_gap = rows()
        with_gap[4]["pool"] = None
        self.assertEqual(drawn(frame), drawn(with_gap))
        frame["debt"] = [2**70 + at for at in range(len(frame))]
        self.assertIn("e+21", drawn(frame))

    @unittest.skipUnless(HAS["numpy"], "there is no numpy")
    def test_arrays(self) -> None:
        numpy: Any = importlib.import_module("numpy")
        told = rows()
        kinds = [("hour", "i8"), ("debt", "u8"), ("pool", "u4"), ("ratio", "f8")]
        array = numpy.array([tuple(row[name] for name, _ in kinds) for row in told], kinds)
        self.assertEqual(drawn(array), drawn(told))
        self.assertEqual(drawn({name: array[name] for name, _ in kinds}), drawn(told))
        with self.assertRaisesRegex(ValueError, "there is no column 'x': there are 'hour', 'debt', 'pool', 'ratio'"):
            chart("", "", [Panel("", ["x"])], array)

    def test_exact_numbers(self) -> None:
        told: List[Tuple[Any, Any]] = [(0, Decimal("0.5")), (Fraction(1, 2), 1), (1, 2**70), (2, Fraction(10**40, 3))]
        plain = [(float(x), float(y)) for x, y in told]
        self.assertEqual(chart("", "", [Panel("", {"x": told})]), chart("", "", [Panel("", {"x": plain})]))

    def test_the_number_of_the_row_goes_across_where_no_column_does(self) -> None:
        told, expected = [{"a": 5}, {"a": 7}, {"a": 6}], chart("", "", [Panel("", {"a": [(0, 5), (1, 7), (2, 6)]})])
        named: List[Any] = [["a"], {"a": "a"}, "a"]
        for lines in named:
            self.assertEqual(chart("", "", [Panel("", lines)], told), expected)

    def test_what_is_refused(self) -> None:
        def refused(kind: Type[Exception], why: str, *data: Any, lines: Any = ("a",), **how: Any) -> None:
            with self.assertRaises(kind) as caught:
                chart("", "", [Panel("", lines)], *data, **how)
            self.assertEqual(str(caught.exception), why)

        self.assertRaisesRegex(ValueError, "^nothing to draw$", chart, "", "", [])
        refused(ValueError, "nothing to draw", [])
        refused(ValueError, "nothing to draw", lines={})
        refused(ValueError, "nothing to draw", lines={"a": []})
        refused(ValueError, "the line 'a' is a column, 'a': of which table? `data` is missing")
        refused(ValueError, "row 1 has no 'a': it has 'b'", [{"a": 1}, {"b": 1}])
        refused(ValueError, "row 0 has no 'a': it is a Row", [Row(1, 2, 3, 4)])
        refused(ValueError, "there is no column 'a': there are 'b', 'c'", {"b": [1], "c": [2]})
        refused(ValueError, "there is no column 'a': there are 'hour', 'debt', 'pool', 'ratio'", Row(1, 2, 3, 4))
        refused(ValueError, "there is no column 'x': there are 'a'", {"a": [1]}, "x")
        refused(ValueError, "'a' has 2 rows, and 'x' has 1", {"a": [1, 2], "x": [1]}, "x")
        refused(ValueError, "'a', row 1: there is no number for what goes across", {"a": [1, 2], "x": [1, None]}, "x")
        refused(TypeError, "'a', row 1: '2' is no number", {"a": [1, "2"]})
        refused(TypeError, "'a', row 0: True is no number", {"a": [True]})
        refused(TypeError, "'a', row 0: [] is no number", {"a": [[]]})
        refused(ValueError, "'a', row 0: it is infinite", {"a": [math.inf]})
        refused(ValueError, "'a', row 0: it is above 10^300", {"a": [10**301]})
        refused(ValueError, "'a', row 0: it is above 10^300", {"a": [10**400]})
        refused(ValueError, "'other' draws nothing: there are 'own' and 'matplotlib'", {"a": [1]}, by="other")


class WithoutMatplotlib(unittest.TestCase):
    def test_the_own_picture_comes_where_it_is_not_there(self) -> None:
        def missing(name: str) -> Any:
            raise ImportError(name)

        with mock.patch("liq.plotted.importlib.import_module", missing):
            made = drawn(rows(), by=MATPLOTLIB)
        self.assertEqual((made.drawn_by, made), (OWN, drawn(rows())))


@unittest.skipUnless(HAS["matplotlib"], "there is no matplotlib")
class ByMatplotlib(unittest.TestCase):
    def setUp(self) -> None:
        caught = warnings.catch_warnings()
        caught.__enter__()
        self.addCleanup(caught.__exit__, None, None, None)
        warnings.simplefilter("error")
        self.matplotlib: Any = importlib.import_module("matplotlib")

    def texts(self, picture: str) -> List[str]:
        root = minidom.parseString(picture).documentElement
        return [node.firstChild.data for node in root.getElementsByTagName("text") if node.firstChild]

    def test_the_same_call(self) -> None:
        made = drawn(rows(), by=MATPLOTLIB)
        self.assertEqual(made.drawn_by, MATPLOTLIB)
        for said in (
            "A market", "Debt and pool (LUSD)", "Ratio (percent)", "time (hours)", "debt of all troves", "ratio",
            "1,000,000",
        ):
            self.assertIn(said, self.texts(made))
        self.assertIn("<title>A market</title>", made)
        self.assertNotRegex(made, "dc:date|[Mm]atplotlib v")

    def test_all_words_are_words(self) -> None:
        lines: Dict[str, Any] = {"_left out": [(0, 1), (1, 2)], "$5 and $6": [(0, 2), (1, None)], "a<b": [(0, 3)]}
        made = chart("x $ y $", "$_$", [Panel("in $", lines)], by=MATPLOTLIB)
        for said in ("x $ y $", "$_$", "in $", " _left out", "$5 and $6", "a<b"):
            self.assertIn(said, self.texts(made))

    def test_a_user_s_settings_change_nothing_and_stay(self) -> None:
        before = drawn(rows(), by=MATPLOTLIB)
        with self.matplotlib.rc_context({"lines.linewidth": 9, "svg.fonttype": "path", "font.size": 30}):
            self.assertEqual(drawn(rows(), by=MATPLOTLIB), before)
            self.assertEqual(self.matplotlib.rcParams["font.size"], 30)

    def test_lines_that_are_flat_great_small_or_below_0(self) -> None:
        pairs: List[List[Any]] = [[7, 7], [10**20, 10**20], [-5, -3], [1e-9, 3e-9], [0, 0], [None, None]]
        for zero in (True, False):
            panels = [Panel("", {"line": list(enumerate(values))}, zero=zero) for values in pairs]
            self.assertEqual(chart("", "", panels, by=MATPLOTLIB).drawn_by, MATPLOTLIB)


class TheSameEachTime(unittest.TestCase):
    def by_a_process(self, by: str, seed: str) -> bytes:
        where = {**os.environ, "PYTHONPATH": str(TOP / "clients/python"), "PYTHONHASHSEED": seed}
        return subprocess.run([sys.executable, "-c", SCRIPT, by], env=where, stdout=subprocess.PIPE, check=True).stdout

    def check(self, by: str) -> Tuple[bytes, bytes]:
        one, two = self.by_a_process(by, "1"), self.by_a_process(by, "2")
        self.assertEqual(one, two)
        return one, two

    def test_own(self) -> None:
        self.assertIn(b"A &lt; B", self.check(OWN)[0])

    @unittest.skipUnless(HAS["matplotlib"], "there is no matplotlib")
    def test_by_matplotlib(self) -> None:
        self.assertIn(b"A &lt; B", self.check(MATPLOTLIB)[0])


class TheExample(OverStandIn):
    """The picture of SIMULATING, which says how the example's market went."""

    def test_it_draws_what_is_in_the_documents(self) -> None:
        example = runpy.run_path(str(TOP / "clients/python/examples/crash.py"))
        here = os.getcwd()
        os.chdir(self.folder)
        self.addCleanup(os.chdir, here)
        with mock.patch.object(sys, "argv", ["crash.py"]), contextlib.redirect_stdout(io.StringIO()) as said:
            example["main"]()
        self.assertEqual(said.getvalue(), "240 hours, 142 of 300 troves are left: see crash.svg\n")
        drawn, shown = ((place / "crash.svg").read_text() for place in (self.folder, TOP / "docs/pictures"))
        self.assertTrue(drawn == shown, "docs/pictures/crash.svg is another picture")
        with mock.patch.object(sys, "argv", ["crash.py", "4"]), contextlib.redirect_stdout(io.StringIO()):
            example["main"]()
        self.assertNotEqual((self.folder / "crash.svg").read_text(), drawn)
