"""Rows as a frame of pandas, or as CSV; whole numbers stay whole.

    frame(market.troves(market.trove_accounts()))       # account, coll, debt, stake
    frame(market.troves(range(100)), scaled=True)       # coll in ether and debt in LUSD, as floats
    frame(market.troves(range(100)), of=Trove)          # these columns, where there is no trove too
    frame(batch.columns(market.query(asked), "trove", asked))
    write_csv(market.wallets(range(100)), "wallets.csv")

A row is a named tuple, a dataclass or a mapping; None, which stands for a trove or a deposit that there is not, is left
out. Rows need not have the same fields: there is a column for each, in the order in which they first come. In the place
of rows there may be columns: a mapping or a named tuple of lists or arrays, all of one length.
"""
import csv
import dataclasses
import numbers
from decimal import Decimal
from pathlib import Path
from typing import Any, Dict, Iterable, List, Mapping, Optional, Sequence, TextIO, Tuple, Type, Union

from .errors import BadType, BadValue
from .optional import need
from .replies import BY_QUERY, BY_VERB, places_of

Row = Any  # a named tuple, a dataclass or a mapping; they share no class
Rows = Union[Row, Iterable[Optional[Row]]]
ROWS = {*BY_VERB.values(), *BY_QUERY.values()}  # that have units
EXACT_MOST = 2**53  # up to here each whole number is a float


def frame(rows: Rows, scaled: bool = False, of: Optional[Type[Any]] = None) -> Any:
    """A frame of pandas with a column for each field of the rows. One row alone is a frame of one. Raises `NoPackage`
    where pandas is not there.

    A column of whole numbers has the type int64, or uint64 where one of them passes that, or object with the ints
    themselves where one passes 2^64 or none is there in some row. So no number is rounded on the way; sums and products
    of int64 and uint64 still wrap around without a word: `coll * price` passes int64 from 9.3 ether at a price of 1,000
    LUSD on.

    `scaled` gives ether, LUSD and rates as floats, which don't wrap, and leaves accounts, minutes and stakes whole. The
    unit of a field is that of its row's type, one of `liq.replies`; others are a TypeError. `of` is the type of the
    rows: its columns are there without a row too, and mappings and columns are scaled by it."""
    pandas = need("pandas", "a frame wants pandas, which is not there; write_csv() and the rows themselves do without")
    columns = _columns_of(rows)
    if columns is None:
        kind, rows = of, [row for row in ([rows] if _is_row(rows) else rows) if row is not None]
        names, found = table([_scaled(row, kind or type(row)) for row in rows] if scaled else rows)
        columns = {name: [row.get(name) for row in found] for name in names or _fields_of_type(of)}
    elif scaled:
        columns = _scaled(columns, of or type(rows))
    typed = {name: _typed(values, _empty_kind(name, of, scaled)) for name, values in columns.items()}
    return pandas.DataFrame({name: pandas.Series(values, dtype=kind) for name, (values, kind) in typed.items()})


def _fields_of_type(of: Optional[Type[Any]]) -> Sequence[str]:
    """The fields of a row's type: a named tuple or a dataclass. None has none."""
    if dataclasses.is_dataclass(of):
        return [field.name for field in dataclasses.fields(of)]
    fields: Sequence[str] = getattr(of, "_fields", ())
    return fields


def _scaled(row: Row, of: Type[Any]) -> Dict[str, Any]:
    """The fields of a row, or its columns, by the units of a type of row. Raises a TypeError where it has none."""
    if of not in ROWS:
        raise BadType(f"{of.__name__} says no units: the rows of liq.replies do, and of=Trove says it of others")
    places = places_of(of)
    return {name: _divided(value, places[name]) if name in places else value for name, value in fields_of(row).items()}


def _divided(value: Any, places: int) -> Any:
    """A whole number, or a column of such, over 10^places as floats."""
    if hasattr(value, "astype"):
        return value.astype("float64") / 10.0**places
    if _is_column(value):
        return [_divided(each, places) for each in value]
    return None if value is None else int(value) / 10**places


def write_csv(rows: Rows, to: Union[str, Path, TextIO]) -> None:
    """Writes rows as CSV with a line of names first, into a file of that name or an open one. Numbers are written
    exactly; what is not there is empty."""
    if not isinstance(to, (str, Path)):
        names, found = table(rows)
        written = csv.DictWriter(to, names, lineterminator="\n")
        written.writeheader()
        written.writerows(found)
        return
    with open(to, "w", newline="", encoding="utf-8") as file:
        write_csv(rows, file)


def table(rows: Rows) -> Tuple[List[str], List[Dict[str, Any]]]:
    """The names of all fields, and each row as a dictionary."""
    columns = _columns_of(rows)
    if columns is not None:
        listed = [values.tolist() if hasattr(values, "tolist") else list(values) for values in columns.values()]
        return list(columns), [dict(zip(columns, row)) for row in zip(*listed)]
    found = [fields_of(row) for row in ([rows] if _is_row(rows) else rows) if row is not None]
    return list(dict.fromkeys(name for row in found for name in row)), found


def fields_of(row: Row) -> Dict[str, Any]:
    """The fields of a row by their names. Raises a TypeError for what is no row."""
    if isinstance(row, Mapping):
        return dict(row)
    if isinstance(row, tuple) and hasattr(row, "_fields"):
        return dict(zip(row._fields, row))
    if dataclasses.is_dataclass(row) and not isinstance(row, type):
        return {field.name: getattr(row, field.name) for field in dataclasses.fields(row)}
    raise BadType(f"no row: {row!r}; a row is a named tuple, a dataclass or a mapping")


def _is_row(rows: Rows) -> bool:
    """Whether it is one row, and not several."""
    is_named = isinstance(rows, Mapping) or hasattr(rows, "_fields")
    return is_named or dataclasses.is_dataclass(rows) and not isinstance(rows, type)


def _columns_of(rows: Rows) -> Optional[Dict[str, Any]]:
    """The columns, where it has such; those that are None are left out. Raises a ValueError where their lengths
    differ."""
    if not _is_row(rows):
        return None
    columns = {name: values for name, values in fields_of(rows).items() if values is not None}
    if not columns or not all(map(_is_column, columns.values())):
        return None
    if len(set(map(len, columns.values()))) > 1:
        raise BadValue(f"columns of different lengths: {({name: len(values) for name, values in columns.items()})}")
    return columns


def _is_column(values: Any) -> bool:
    """Whether it is a list or an array of one dimension."""
    return isinstance(values, (list, tuple, range)) or getattr(values, "ndim", 0) == 1


def _empty_kind(name: str, of: Optional[Type[Any]], scaled: bool) -> str:
    """The type of a column without a value."""
    if of not in ROWS:
        return "object"
    return "float64" if scaled and name in places_of(of) else "int64"


def _typed(values: Any, empty: str) -> Tuple[Sequence[Any], Any]:
    """The values of a column and its type; None where pandas may choose it."""
    if hasattr(values, "dtype"):
        # The column of a batch may have its bytes turned, which pandas does not take; its own types have no such.
        turned = getattr(values.dtype, "newbyteorder", None)
        return values.astype(turned("=")) if turned else values, None
    kinds = {_kind(value) for value in values}
    if not kinds:
        return values, empty
    if "whole" not in kinds:
        return values, object if kinds & {"none", "exact"} else None
    found = [int(value) if _kind(value) == "whole" else value for value in values]
    whole = [value for value in found if _kind(value) == "whole"]
    least, most = min(whole), max(whole)
    if kinds == {"whole", "float"} and -EXACT_MOST <= least and most <= EXACT_MOST:
        return found, "float64"
    if kinds != {"whole"} or least < -(2**63) or most >= 2**64 or least < 0 and most >= 2**63:
        return found, object
    return found, "int64" if most < 2**63 else "uint64"


def _kind(value: Any) -> str:
    """What a value counts as: a whole number, a float, a Decimal, none, or what else there is."""
    if isinstance(value, numbers.Integral) and not isinstance(value, bool):
        return "whole"
    if isinstance(value, float):
        return "float"
    return "exact" if isinstance(value, Decimal) else "none" if value is None else "other"
