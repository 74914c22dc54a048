"""Lines as a picture in SVG: by matplotlib where that is there and wanted, else with nothing but the standard library.

    chart("A crash", "time", [Panel("debt", {"of all troves": "debt"}, unit="LUSD")], rows, "hour", across_unit="hours")

The same call gives the same picture, to the byte, on each machine; where matplotlib draws, with the same matplotlib.
"""
from typing import Any, Iterator, Mapping, NamedTuple, Optional, Sequence, Union

from .drawn import WIDTH, draw, ticks
from .errors import BadValue
from .plotted import plot
from .series import Points, Scale, Table, points_of

__all__ = ["OWN", "MATPLOTLIB", "Panel", "Picture", "Points", "Table", "WIDTH", "chart", "ticks"]

OWN, MATPLOTLIB = "own", "matplotlib"
WIDTH_LEAST, WIDTH_MOST = 240, 4000


class Panel(NamedTuple):
    """Some lines over one scale: its heading, the lines by their names, and the unit of the scale.

    A line is points, pairs of numbers; or, with data, the name of a column. Columns alone may be named in a list, or
    one by itself.
    `zero` has the scale begin at 0 or reach it, and `dots` puts a dot at each point, where the line between two says
    nothing.
    """

    title: str
    lines: Union[Mapping[str, Union[Points, str]], Sequence[str]]
    zero: bool = True
    dots: bool = False
    unit: str = ""


class Picture(str):
    """A picture as the text of an SVG file. `drawn_by` is OWN or MATPLOTLIB. A notebook shows it as a picture."""

    drawn_by: str

    def __new__(cls, text: str, drawn_by: str = OWN) -> "Picture":
        made = super().__new__(cls, text)
        made.drawn_by = drawn_by
        return made

    def _repr_svg_(self) -> str:
        return str(self)


def chart(
    title: str, across: str, panels: Sequence[Panel], data: Optional[Table] = None, x: Optional[str] = None,
    by: str = OWN, width: int = WIDTH, across_unit: str = "", label: str = "",
) -> Picture:
    """A picture of panels one below the other, which share what goes across: `across` is its heading.

    `data` is a table whose columns the panels name: rows (mappings, named tuples or other objects with attributes), a
    mapping or a named tuple of columns, a frame of pandas, or an array of numpy with named columns. `x` is the column
    that goes across; without it that is a frame's index, or else the number of the row, from 0 on. A number is any that
    is real; None, and what is not a number (NaN, NA), is a gap in the line.

    `by=MATPLOTLIB` has matplotlib draw it, where that is there; without it the picture is drawn as by `OWN`. `width` is
    in points, from 240 to 4,000. `label` is what a reader of the screen says of the picture, the title otherwise.

    Raises `BadValue` where there is nothing to draw, where there is no such column, where columns are of different
    lengths, and at a number that is infinite or above 10^300; `BadType` at what is no number.
    """
    if by not in (OWN, MATPLOTLIB):
        raise BadValue(f"{by!r} draws nothing: there are {OWN!r} and {MATPLOTLIB!r}")
    if not WIDTH_LEAST <= width <= WIDTH_MOST:
        raise BadValue(f"a picture is from {WIDTH_LEAST} to {WIDTH_MOST} points wide, not {width}")
    # Rows that come once are asked for by each line.
    table: Optional[Table] = list(data) if isinstance(data, Iterator) else data
    scales = [_scale(panel, table, x) for panel in panels]
    if not any(points for scale in scales for _, points in scale.lines):
        raise BadValue("nothing to draw")
    said = label or title or ", ".join(scale.title for scale in scales)
    below = with_unit(across, across_unit)
    plotted = plot(title, below, scales, width, said) if by == MATPLOTLIB else None
    if plotted is not None:
        return Picture(plotted, MATPLOTLIB)
    return Picture(draw(title, below, scales, width, said))


def _scale(panel: Panel, data: Optional[Table], x: Optional[str]) -> Scale:
    """A panel with its points as floats."""
    columns = [panel.lines] if isinstance(panel.lines, str) else panel.lines
    named: Mapping[str, Any] = columns if isinstance(columns, Mapping) else {line: line for line in columns}
    lines = [(str(name), points_of(line, str(name), data, x)) for name, line in named.items()]
    return Scale(with_unit(panel.title, panel.unit), lines, panel.zero, panel.dots)


def with_unit(heading: str, unit: str) -> str:
    """A heading with its unit, as an axis bears it."""
    return f"{heading} ({unit})" if unit else heading
