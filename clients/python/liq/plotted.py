"""A picture of lines in SVG, drawn by matplotlib, where that is there."""
import importlib
import io
from typing import Any, List, Optional, Sequence

from .drawn import COLOURS, PLOT, spelt
from .series import Scale

STYLES = ("-", "--", ":", "-.", (0, (1, 3)))
SALT = "liq"  # of the names within the picture, which matplotlib would draw by chance
INCH = 100


def plot(title: str, across: str, scales: Sequence[Scale], width: int, label: str) -> Optional[str]:
    """The picture, the same each time; None where there is no matplotlib."""
    try:
        matplotlib: Any = importlib.import_module("matplotlib")
        figures: Any = importlib.import_module("matplotlib.figure")
        backend: Any = importlib.import_module("matplotlib.backends.backend_svg")
    except ImportError:
        return None
    with matplotlib.rc_context():
        matplotlib.rcdefaults()
        matplotlib.rcParams.update({"svg.hashsalt": SALT, "svg.fonttype": "none", "font.size": 9})
        height = (PLOT + 70) * len(scales) + 60
        figure = figures.Figure(figsize=(width / INCH, height / INCH), dpi=INCH, constrained_layout=True)
        backend.FigureCanvasSVG(figure)
        if title:
            figure.suptitle(_plain(title), x=0.01, ha="left", weight="bold")
        every = figure.subplots(len(scales), 1, sharex=True, squeeze=False)
        for (axes,), scale in zip(every, scales):
            _draw(axes, scale)
        every[-1][0].set_xlabel(_plain(across))
        every[-1][0].xaxis.set_major_formatter(lambda value, place: spelt(value))
        file = io.StringIO()
        figure.savefig(file, format="svg", metadata={"Date": None, "Creator": None, "Title": label})
    return file.getvalue()


def _draw(axes: Any, scale: Scale) -> None:
    """A panel."""
    drawn: List[Any] = []
    for at, (_, points) in enumerate(scale.lines):
        style = STYLES[(at + at // len(COLOURS)) % len(STYLES)]
        drawn += axes.plot(
            [x for x, _ in points], [y for _, y in points], color=COLOURS[at % len(COLOURS)], linestyle=style,
            linewidth=1.4, marker="o" if scale.dots or len(points) == 1 else None, markersize=3)
    axes.set_title(_plain(scale.title), loc="left", fontsize=9)
    axes.yaxis.set_major_formatter(lambda value, place: spelt(value))
    least, most = min(scale.heights, default=0.0), max(scale.heights, default=0.0)
    if scale.zero and least >= 0 < most:
        axes.set_ylim(bottom=0.0)
    elif scale.zero and least < 0 >= most:
        axes.set_ylim(top=0.0)
    axes.grid(axis="y", color="#dddddd")
    axes.legend(drawn, [_plain(name) for name, _ in scale.lines], fontsize=8, frameon=False)


def _plain(text: str) -> str:
    """Text that is no formula, whatever stands in it; nor is a name left out that begins with an underscore."""
    shown = text.replace("$", r"\$")
    return f" {shown}" if shown.startswith("_") else shown
