"""Both pages, opened in a browser without a window: whether they show the numbers of the JSON, load nothing, run
nothing, and can be read and used by everybody; and pages in which something is wrong, which the same look tells."""
import json
import re
import shutil
import tempfile
import unittest
from decimal import ROUND_DOWN, Decimal
from pathlib import Path
from typing import Any, Callable, ClassVar, Dict, List, Optional, Tuple

from liq import page, stated, statement
from liq.ends import Usage
from liq.statement_page import page as statement_page

from . import modelled, shown
from .browser import FOUND, Tab, shared
from .market import InFolder, OverProgram
from .test_page import run_main

DAY = "2026-01-01"
# Of each table the cells of its body: what is shown, and the exact value, where it is beside.
CELLS = """
Object.fromEntries([...document.querySelectorAll('table')].map((table) => [table.id, [...table.querySelectorAll('tr')]
  .filter((row) => !row.closest('thead')).map((row) => [...row.cells].map((cell) => [
    cell.textContent.replace(/\\s+/g, ' ').trim(),
    cell.querySelector('data') ? cell.querySelector('data').value : null, row.className]))]))
"""
FACTS = """
[...document.querySelectorAll('dl.facts > div')].map((fact) => [
  fact.parentElement.id, fact.querySelector('dt').textContent.trim(), fact.querySelector('dd').textContent.trim()])
"""
LISTS = "[...document.querySelectorAll('main li')].map((line) => line.textContent)"
Cells = Dict[str, List[List[Tuple[str, Optional[str]]]]]


# ---- what the page has to show of the JSON, by arithmetic of its own


def cut(value: int, unit: int, places: int) -> str:
    """A whole number of a unit's parts as decimal text, cut off."""
    return f"{(Decimal(value) / unit).quantize(Decimal(1).scaleb(-places), ROUND_DOWN):,}"


FORMS: Dict[str, Callable[[int], str]] = {
    "plain": str, "count": lambda value: f"{value:,}", "ether": lambda value: cut(value, 10**9, 4),
    "lusd": lambda value: cut(value, 10**6, 2), "percent": lambda value: cut(value, 100, 2) + " %",
    "price": lambda value: cut(value, 10**6, 2) if value >= 10**8 else "no price",
}
COLUMNS = {
    "tried": {"price": "lusd", "troves": "count", "debt": "lusd"},
    "by_ratio": {"account": "plain", "coll": "ether", "debt": "lusd", "ratio": "percent", "at_most": "price"},
    "by_list": {
        "place": "count", "account": "plain", "coll": "ether", "debt": "lusd", "stake": "count", "ratio": "percent"},
    "deposits": {"account": "plain", "balance": "lusd", "part": "percent", "gain": "ether"},
    "homes": {"home": "plain", "coll": "ether", "lusd": "lusd"},
}
MISSING = {"at_most": "the last one stays", "part": "-", "coll": "", "lusd": ""}


def expected_cell(name: str, form: str, row: Dict[str, Any]) -> Tuple[str, Optional[str]]:
    """A cell as it has to be shown, and its exact value."""
    value = row[name]
    if value is None or isinstance(value, str):
        return (MISSING[name] if value is None else value), None
    mark = "now, " if name == "at_most" and row["now"] else ""
    return mark + FORMS[form](value), str(value)


def faults_of_market(tab: Tab, told: Dict[str, Any]) -> List[str]:
    """Where a market's page shows other numbers than its JSON."""
    found: List[str] = []
    cells = tab.ask(CELLS)
    for table, columns in COLUMNS.items():
        expected = [[list(expected_cell(name, form, row)) for name, form in columns.items()] for row in told[table]]
        here = [[cell[:2] for cell in row] for row in cells.get(table, [])]
        found += differences(table, expected, here)
    marked = [row[0][2] == "now" for row in cells.get("by_ratio", [])]
    found += differences("marked", [row["now"] for row in told["by_ratio"]], marked)
    pool, ratio = told["pool"], told["ratio"]
    found += differences("facts", [
        ["facts", "LUSD for one ether", FORMS["lusd"](told["price"])],
        ["facts", f"{told['mode'].capitalize()} Mode", "no debt" if ratio is None else FORMS["percent"](ratio)],
        ["facts", "troves", FORMS["count"](told["troves"])],
        ["facts", "that liquidate_lowest takes now", FORMS["count"](told["taken_now"])],
        ["facts", "LUSD in the Stability Pool", FORMS["lusd"](pool["lusd"])],
        ["pool_facts", "LUSD", FORMS["lusd"](pool["lusd"])],
        ["pool_facts", "ether that waits for its depositors", FORMS["ether"](pool["coll"])],
        *(["pool_facts", {"p": "product"}.get(name, name), str(pool[name])] for name in ("p", "scale", "epoch", "sum")),
    ], tab.ask(FACTS))
    beside: Dict[str, str] = dict(tab.ask(
        "[...document.querySelectorAll('p data')].map((data) => [data.textContent, data.value])"))
    for name in ("records", "minute", "marked_now", "fee_minute", "stakes"):
        if beside.get(f"{told[name]:,}") != str(told[name]):
            found.append(f"numbers: {name} is not there")
    return found


def faults_of_statement(tab: Tab, told: Dict[str, Any], tables: List[stated.Table]) -> List[str]:
    """Where a statement's page shows other numbers than its JSON."""
    cells = tab.ask(CELLS)
    found = differences("facts", {
        name.replace("_", " "): text_of(value) for name, value in told.items()
        if not isinstance(value, (list, bool))}, {row[0][0]: row[1][0] for row in cells["facts"]})
    for table in tables:
        expected = [[text_of(row.get(f"{key}_shown", row[key])) for key in table.keys] for row in told[table.name]]
        here = [[cell[0] for cell in row] for row in cells.get(f"table_{table.name}", [])]
        found += differences(table.name, expected, here)
    lines = [line for name in ("does_not_hold", "checked", "not_checked") for line in told.get(name, [])]
    return found + differences("lists", lines, tab.ask(LISTS))


def text_of(value: object) -> str:
    return "-" if value is None else str(value)


def differences(name: str, expected: Any, here: Any) -> List[str]:
    return [] if expected == here else [f"numbers: {name}: {str(here)[:200]}, and not {str(expected)[:200]}"]


# ---- the cases


@unittest.skipUnless(FOUND, "there is no chromium")
class Opened(InFolder):
    """Cases over a browser, which is begun once for all."""

    made: ClassVar[Path]
    market: ClassVar[page.Market]
    stated: ClassVar[stated.Statement]

    @classmethod
    def setUpClass(cls) -> None:
        super().setUpClass()
        cls.made = Path(tempfile.mkdtemp(prefix="liq-test-"))
        cls.addClassCleanup(shutil.rmtree, cls.made)
        cls.market = shown.a_market(cls.made)
        cls.stated = statement.statement(cls.made, None, DAY)

    def setUp(self) -> None:
        super().setUp()
        self.bounded(600)

    def tab(self, text: str, width: int = 1400, dark: bool = False) -> Tab:
        """A page of this text, opened."""
        path = self.folder / "page.html"
        path.write_text(text, "utf-8")
        return shared().open(path, width, dark)


class RightPages(Opened):
    def check(self, text: str) -> None:
        for width, dark in ((400, False), (400, True), (1400, False), (1400, True)):
            with self.subTest(width=width, dark=dark):
                self.assertEqual(self.tab(text, width, dark).faults(), [])

    def test_a_market(self) -> None:
        self.check(page.page(self.market))

    def test_a_market_in_which_troves_can_be_liquidated(self) -> None:
        low = self.market.report.system._replace(price=340 * 10**6, base_rate=10**18, records=10**6)
        fallen = self.market._replace(report=self.market.report._replace(system=low))
        self.check(page.page(fallen))
        told = page.told(fallen)
        self.assertGreater(told["marked_now"], 1)
        self.assertEqual(faults_of_market(self.tab(page.page(fallen)), told), [])

    def test_an_empty_market(self) -> None:
        self.check(page.page(shown.an_empty_market()))

    def test_a_statement(self) -> None:
        self.check(statement_page(self.stated))

    def test_a_statement_that_does_not_hold(self) -> None:
        wrong = self.stated._replace(brought=self.stated.brought + 1, left=["<b>left</b> & more"], earlier="x" * 300)
        self.check(statement_page(wrong))

    def test_the_numbers_of_a_market_are_those_of_its_json(self) -> None:
        for market in (self.market, shown.an_empty_market()):
            told = json.loads(page.as_json(market))
            self.assertEqual(faults_of_market(self.tab(page.page(market)), told), [])

    def test_the_numbers_of_a_statement_are_those_of_its_json(self) -> None:
        wrong = self.stated._replace(brought=self.stated.brought + 1)
        for made in (self.stated, wrong):
            told, tab = json.loads(stated.as_json(made)), self.tab(statement_page(made))
            self.assertEqual(faults_of_statement(tab, told, stated.tables(made)), [])
        self.assertIn("does_not_hold", told)


class WrongPages(Opened):
    """Each kind of fault, put into a page in which nothing is wrong, is told."""

    def wrong(self, before: str, after: str, text: Optional[str] = None, times: int = 1) -> str:
        right = page.page(self.market) if text is None else text
        self.assertIn(before, right)
        return right.replace(before, after, times)

    def free(self, text: Optional[str] = None) -> str:
        """The page without its policy, so that what is put in is not held back."""
        right = page.page(self.market) if text is None else text
        return re.sub("<meta http-equiv=[^>]*>\n", "", right)

    def told(self, fault: str, text: str, width: int = 1400) -> None:
        found = self.tab(text, width).faults(keys=fault.startswith("keyboard"))
        self.assertTrue(any(line.startswith(fault) for line in found), (fault, found))

    def test_a_number_that_is_another(self) -> None:
        told, right = json.loads(page.as_json(self.market)), page.page(self.market)
        table = right.index('<table id="by_list">')
        digits = [found.start(1) for found in re.finditer(r"</?data[^>]*>|(\d)", right[table:]) if found[1]]
        for place in (table + digits[3], table + digits[len(digits) // 2], right.index("<dd><data")):
            at = re.compile(r">[^<]*?(\d)").search(right, place)
            assert at
            changed = right[: at.start(1)] + str((int(at[1]) + 1) % 10) + right[at.end(1) :]
            self.assertNotEqual(faults_of_market(self.tab(changed), told), [])
        value = re.compile(r'<data value="(\d+)"').search(right, table)
        assert value
        changed = right[: value.start(1)] + "7" + right[value.start(1) :]
        self.assertNotEqual(faults_of_market(self.tab(changed), told), [])
        without = re.sub('<tr class="now">|<tr><th scope="row"><data value="29">', "<tr>", right)
        self.assertNotEqual(faults_of_market(self.tab(without), told), [])

    def test_a_number_of_a_statement_that_is_another(self) -> None:
        told, right = json.loads(stated.as_json(self.stated)), statement_page(self.stated)
        tables = stated.tables(self.stated)
        digits = list(re.finditer(r'<td class="(?:number|words)">[^<]*?(\d)', right))
        for digit in (digits[3], digits[len(digits) // 3], digits[-1]):
            changed = right[: digit.start(1)] + str((int(digit[1]) + 1) % 10) + right[digit.end(1) :]
            self.assertNotEqual(faults_of_statement(self.tab(changed), told, tables), [])
        changed = self.wrong("<li>who sent", "<li>nobody sent", right)
        self.assertNotEqual(faults_of_statement(self.tab(changed), told, tables), [])

    def test_a_part_from_elsewhere(self) -> None:
        image = '<main><img alt="" src="http://192.0.2.1/x.png">'
        self.told("console: ", self.wrong("<main>", image))
        self.told("loads: http://192.0.2.1/x.png", self.wrong("<main>", image, self.free()))
        (self.folder / "x.png").write_bytes(b"x")
        beside = self.wrong("<main>", '<main><img alt="" src="x.png">', self.free())
        self.told(f"loads: {(self.folder / 'x.png').as_uri()}", beside)
        self.told("structure: there is a img", beside)
        self.told("loads: https://", self.wrong("<style>", "<style>@import 'https://192.0.2.1/x.css';", self.free()))
        self.told("structure: it leads to https:", self.wrong('href="#pool"', 'href="https://192.0.2.1/"'))

    def test_a_script(self) -> None:
        script = "</main><script>missing()</script>"
        self.told("console: ", self.wrong("</main>", script))
        self.told("console: Uncaught", self.wrong("</main>", script, self.free()))
        self.told("console: ", self.wrong("</main>", "</main><script>console.log(1)</script>", self.free()))
        self.told("structure: there is a script", self.wrong("</main>", "</main><script></script>", self.free()))

    def test_a_style_sheet_that_is_another(self) -> None:
        self.told("console: ", self.wrong("<style>", "<style>p { color: red }"))

    def test_what_is_too_wide(self) -> None:
        unboxed = self.wrong("overflow-x: auto", "overflow-x: visible", self.free())
        self.told("too wide: ", unboxed, 400)
        of_statement = self.free(statement_page(self.stated))
        self.told("too wide: ", self.wrong("overflow-x: auto", "overflow-x: visible", of_statement), 400)
        picture = '<svg role="img" aria-label="x" width="1500" height="9"><rect width="1" height="1"/></svg>'
        self.told("too wide: ", self.wrong("<main>", f"<main>{picture}"), 1400)

    def test_what_is_too_small(self) -> None:
        self.told("too small: ", self.wrong("dt { font-size: .875rem }", "dt { font-size: 11px }", self.free()))
        one_picture = self.wrong(".narrow { display: none }", ".narrow { display: none !important }", self.free())
        one_picture = one_picture.replace(".wide { display: none }", "")
        self.told("too small: ", one_picture, 400)

    def test_what_the_keyboard_does_not_come_to_or_show(self) -> None:
        self.told("keyboard: it is not seen", self.wrong("outline: 3px solid", "outline: 0 solid", self.free()))
        self.told("keyboard: Tab comes to", self.wrong('<a href="#pool"', '<a tabindex="5" href="#pool"'))
        self.told("structure: a table that is in no box", self.wrong(' tabindex="0"', ""))
        self.told("structure: a table that is in no box", self.wrong(' aria-label="Totals: table"', ""))
        held = "</main><script>document.querySelector('summary').onclick = (event) => event.preventDefault()</script>"
        self.told("keyboard: Enter does not open", self.wrong("</main>", held, self.free()))

    def test_what_does_not_stand_out(self) -> None:
        for colour, before in (
            ("--soft: #8b949e", "--soft: #57606a"), ("--mark: #ffffff", "--mark: #a33b0b"),
            ("--link: #9ac", "--link: #0b57a4"), ("--line-0: #cdf", "--line-0: #1f5fa8"),
        ):
            text = self.wrong(before, colour, self.free())
            if "mark" in colour:
                text = text.replace("<main>", '<main><p class="mark">x</p>')
            self.told("contrast: ", text)
        dark = self.wrong("--ink: #e6e9ee", "--ink: #444444", self.free())
        self.assertTrue(any(line.startswith("contrast: ") for line in self.tab(dark, dark=True).faults(keys=False)))

    def test_what_a_page_has_to_have(self) -> None:
        for before, after, said in (
            ('<html lang="en">', "<html>", "no language"), ("<title>A liq market</title>", "", "no title"),
            ("<!DOCTYPE html>\n", "", "no doctype"), ("default-src 'none'", "default-src data:", "no policy"),
            ("<h2", "<h3", "a heading out of order"), ('role="img"', 'role="none"', "a picture without a label"),
            ('scope="', 'data-scope="', "a table without heads"), ('id="pool"', 'id="list"', "twice: list"),
            ("<main>", "<div>", "not one main part"), ('id="totals"', 'id="other"', "there is no #totals"),
        ):
            right = page.page(self.market).replace("&#x27;", "'")
            self.told(f"structure: {said}", self.wrong(before, after, right, times=-1))


@unittest.skipUnless(FOUND, "there is no chromium")
class OverTheProgram(OverProgram):
    """The whole way: a market of the program, the commands, and what a browser shows."""

    def test_both_commands(self) -> None:
        folder = self.folder / "market"
        modelled.crash(folder)
        try:
            page.read_market(folder)
        except Usage:
            self.skipTest("the program does not have the word report")
        html, told = run_main(page.main, str(folder)), json.loads(run_main(page.main, "--json", str(folder)))
        (self.folder / "market.html").write_text(html)
        tab = shared().open(self.folder / "market.html", 400)
        self.assertEqual((tab.faults(), faults_of_market(tab, told)), ([], []))
        words = ("--date", DAY, str(folder))
        html = run_main(statement.main, "--form", "page", *words)
        told = json.loads(run_main(statement.main, "--form", "json", *words))
        (self.folder / "statement.html").write_text(html)
        tab = shared().open(self.folder / "statement.html", 400)
        tables = stated.tables(statement.statement(folder, None, DAY))
        self.assertEqual((tab.faults(), faults_of_statement(tab, told, tables)), ([], []))
