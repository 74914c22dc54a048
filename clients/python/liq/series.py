"""The points of a line: out of pairs, or out of the columns of a table, whichever kind of table that is."""
import math
from typing import Any, Iterable, List, Mapping, NamedTuple, Optional, Sequence, Tuple, Union

from .errors import BadType, BadValue

Points = Sequence[Tuple[Any, Any]]
# A mapping or a named tuple of columns, rows, a frame of pandas, or an array of numpy with named columns.
Table = Union[Mapping[str, Sequence[Any]], Sequence[Any], Any]
Pairs = List[Tuple[float, float]]
GREATEST = 1e300  # so that a difference of two is a float


class Scale(NamedTuple):
    """A panel as it is drawn: its heading, and its lines; `y` is NaN where a line has a gap."""

    title: str
    lines: List[Tuple[str, Pairs]]
    zero: bool
    dots: bool

    @property
    def heights(self) -> List[float]:
        """What goes up, without gaps."""
        return [y for _, points in self.lines for _, y in points if not math.isnan(y)]


def points_of(line: Union[Points, str], name: str, data: Optional[Table], x: Optional[str]) -> Pairs:
    """The points of a line. Its name stands in the errors."""
    if not isinstance(line, str):
        pairs = [(number(across, name, at), number(up, name, at)) for at, (across, up) in enumerate(line)]
    elif data is None:
        raise BadValue(f"the line {name!r} is a column, {line!r}: of which table? `data` is missing")
    else:
        ups = column(data, line)
        acrosses = places(data, x, len(ups))
        if len(ups) != len(acrosses):
            raise BadValue(f"{line!r} has {len(ups):,} rows, and {x!r} has {len(acrosses):,}")
        pairs = [
            (number(across, x or "the index", at), number(up, line, at))
            for at, (across, up) in enumerate(zip(acrosses, ups))]
    for at, (across, _) in enumerate(pairs):
        if math.isnan(across):
            raise BadValue(f"{name!r}, row {at}: there is no number for what goes across")
    return pairs


def column(data: Any, name: str) -> List[Any]:
    """A column of a table. Raises `BadValue` where the table has none of that name."""
    if isinstance(data, Mapping) or hasattr(data, "columns"):
        if name not in data:
            raise BadValue(f"there is no column {name!r}: there are {_listed(data)}")
        return list(data[name])
    is_tuple = hasattr(data, "_fields")
    names: Any = data._fields if is_tuple else getattr(getattr(data, "dtype", None), "names", None)
    if names is not None:
        if name not in names:
            raise BadValue(f"there is no column {name!r}: there are {_listed(names)}")
        return list(getattr(data, name) if is_tuple else data[name])
    return [_of_row(row, name, at) for at, row in enumerate(data)]


def places(data: Any, x: Optional[str], count: int) -> List[Any]:
    """What goes across."""
    if x is not None:
        return column(data, x)
    if hasattr(data, "columns") and hasattr(data, "index"):
        return list(data.index)
    return list(range(count))


def number(value: Any, name: str, row: int) -> float:
    """A number as a float, NaN where there is none."""
    where = f"{name!r}, row {row}"
    if value is None or type(value).__name__ in ("NAType", "NaTType"):
        return math.nan
    if isinstance(value, (str, bytes, bool)):
        raise BadType(f"{where}: {value!r} is no number")
    try:
        found = float(value)
    except OverflowError:
        raise BadValue(f"{where}: it is above 10^300") from None
    except (TypeError, ValueError):
        raise BadType(f"{where}: {value!r} is no number") from None
    if abs(found) > GREATEST:
        raise BadValue(f"{where}: it is " + ("infinite" if math.isinf(found) else "above 10^300"))
    return found


def _of_row(row: Any, name: str, at: int) -> Any:
    """What a row has under a name."""
    if isinstance(row, Mapping):
        if name not in row:
            raise BadValue(f"row {at} has no {name!r}: it has {_listed(row)}")
        return row[name]
    if not hasattr(row, name):
        raise BadValue(f"row {at} has no {name!r}: it is a {type(row).__name__}")
    return getattr(row, name)


def _listed(names: Iterable[Any]) -> str:
    return ", ".join(repr(name) for name in names) or "none"
