"""A statement as a page of HTML, without scripts and without parts from elsewhere: the numbers of the text."""
import re
from typing import Any, Dict, List

from .stated import NUMBER, Statement, Table, cell, facts_of, lists, tables
from .template import Templates, head_of

TITLE = "A statement of a liq market"


def page(statement: Statement) -> str:
    """The page."""
    shown_lists = [
        {"name": name_of(title), "title": title, "lines": lines} for title, lines in lists(statement)]
    shown_tables = [_table(table) for table in tables(statement)]
    return Templates({}).fill("statement.html", {
        **head_of(TITLE),
        "faults": statement.faults,
        "contents": [*shown_lists, *shown_tables],
        "facts": [{"name": name.replace("_", " "), "value": cell(value)} for name, value in facts_of(statement)],
        "lists": shown_lists,
        "tables": shown_tables,
    })


def name_of(title: str) -> str:
    """A title as the name of a place on the page."""
    return re.sub("[^a-z]+", "_", title.lower())


def _table(table: Table) -> Dict[str, Any]:
    """A table: numbers stand to the right, all else to the left, and may go on in a further line."""
    rows = [[cell(value) for value in row] for row in table.rows]
    kinds: List[str] = ["number" if all(map(NUMBER, column)) else "words" for column in zip(*rows)]
    return {
        "name": table.name, "title": table.title,
        "heads": [{"text": head, "kind": kind} for head, kind in zip(table.heads, kinds)],
        "rows": [[{"text": text, "kind": kind} for text, kind in zip(row, kinds)] for row in rows],
    }
