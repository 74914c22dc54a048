"""A picture of lines in SVG, drawn with nothing but the standard library. It bears no style sheet: a page that embeds
it gives its classes other colours, as where a screen is dark."""
import math
from html import escape
from itertools import groupby
from typing import Callable, Iterator, List, NamedTuple, Sequence, Tuple

from .series import Pairs, Scale

COLOURS = ("#1f5fa8", "#b84a12", "#2c7a3f", "#8a3fa0", "#5c5c5c")
DASHES = ("", "6 3", "2 2", "8 3 2 3", "1 3")
INK, RULE, PAPER = "#1b1f24", "#d8dde2", "#ffffff"
WIDTH, PLOT, RIGHT, EDGE = 760, 160, 16, 12
TITLE, HEADING, LEGEND, BELOW = 30, 18, 17, 34  # heights in points: of lines of text, and of what is below a plot
LETTER = 6.4  # the width of a letter in text of 11 points, as wide as one may be taken to be on the whole
SWATCH = 28  # a piece of the line, in front of its name
PARTS = 5

Place = Callable[[float, float], Tuple[float, float]]


class Frame(NamedTuple):
    """Where a plot lies, and what it goes from and to across."""

    left: float
    right: float
    low: float
    high: float


def draw(title: str, across: str, scales: Sequence[Scale], width: int, label: str) -> str:
    """The picture. There is one point at least."""
    every = [x for scale in scales for _, points in scale.lines for x, _ in points]
    marks = [heights_of(scale) for scale in scales]
    widest = max(len(spelt(mark)) for each in marks for mark in each)
    frame = Frame(EDGE + max(28.0, widest * LETTER), width - RIGHT, min(every), max(every))
    top: float = TITLE if title else EDGE
    parts = [_text(EDGE, 20, fitting(title, width - 2 * EDGE, 15), "title", size=15, bold=True)] if title else []
    for scale, ups in zip(scales, marks):
        legend = _legend(scale, top + HEADING, frame)
        parts += [_text(EDGE, top + 12, fitting(scale.title, width - 2 * EDGE), "heading", bold=True), *legend.drawn]
        top = legend.bottom
        parts += _plot(scale, ups, top, frame)
        top += PLOT + BELOW
    parts.append(_text(frame.right, top + 2, fitting(across, frame.right), "heading", anchor="end"))
    height = math.ceil(top + EDGE)
    said = escape(label)
    head = f'<svg xmlns="http://www.w3.org/2000/svg" class="chart" role="img" aria-label="{said}" '
    head += f'viewBox="0 0 {width} {height}" width="{width}" height="{height}">'
    back = f'<rect class="back" width="{width}" height="{height}" fill="{PAPER}"/>'
    return "\n".join([head, f"<title>{said}</title>", back, *parts, "</svg>", ""])


def heights_of(scale: Scale) -> List[float]:
    """The marks of what goes up."""
    values = scale.heights or [0.0]
    return ticks(min(values + [0.0] * scale.zero), max(values + [0.0] * scale.zero))


# ---- a panel


class Legend(NamedTuple):
    """The names of all lines, and where they end."""

    drawn: List[str]
    bottom: float


def _legend(scale: Scale, top: float, frame: Frame) -> Legend:
    """The names, beside each other as far as there is room."""
    parts, x, y = [], float(EDGE), top
    for at, (whole, _) in enumerate(scale.lines):
        name = fitting(whole, frame.right - EDGE - SWATCH)
        wide = SWATCH + len(name) * LETTER + 14
        if x + wide > frame.right and x > EDGE:
            x, y = float(EDGE), y + LEGEND
        parts.append(_line(f"M{x:.1f} {y + 8:.1f}h22", at))
        parts.append(_text(x + SWATCH, y + 12, name, "name"))
        x += wide
    return Legend(parts, y + LEGEND + 8)


def _plot(scale: Scale, ups: Sequence[float], top: float, frame: Frame) -> Iterator[str]:
    """The scales and the lines."""
    bottom, least, most = top + PLOT, ups[0], ups[-1]

    def place(x: float, y: float) -> Tuple[float, float]:
        across = (x - frame.low) / (frame.high - frame.low) if frame.high > frame.low else 0.5
        up = (y - least) / (most - least) if most > least else 0.5
        return frame.left + across * (frame.right - frame.left), bottom - up * (bottom - top)

    for mark in ups:
        _, y = place(frame.low, mark)
        yield f'<path class="rule" d="M{frame.left:.1f} {y:.1f}H{frame.right:.1f}" stroke="{RULE}"/>'
        yield _text(frame.left - 6, y + 4, spelt(mark), "tick", anchor="end")
    longest = max(len(spelt(frame.low)), len(spelt(frame.high))) * LETTER
    for mark in ticks(frame.low, frame.high, max(1, int((frame.right - frame.left) // max(80, longest + 18)))):
        if frame.low <= mark <= frame.high:
            x, _ = place(mark, least)
            half = len(spelt(mark)) * LETTER / 2
            middle = max(half, min(x, frame.right + RIGHT - half))
            yield f'<path class="rule" d="M{x:.1f} {bottom:.1f}v4" stroke="{RULE}"/>'
            yield _text(middle, bottom + 16, spelt(mark), "tick", anchor="middle")
    for at, (_, points) in enumerate(scale.lines):
        yield from _drawn_line(points, place, at, scale.dots)


def _drawn_line(points: Pairs, place: Place, at: int, dots: bool) -> Iterator[str]:
    """A line in pieces, between its gaps, and a dot at each point, or at a point that is alone."""
    path, marked = "", []
    for gap, piece in groupby(points, lambda point: math.isnan(point[1])):
        if gap:
            continue
        placed = [place(*point) for point in piece]
        if dots or len(placed) == 1:
            marked += placed
        path += "M" + "L".join(f"{x:.1f} {y:.1f}" for x, y in thinned(placed))
    if path:
        yield _line(path, at)
    colour = COLOURS[at % len(COLOURS)]
    for x, y in marked:
        yield f'<circle class="dot-{at % len(COLOURS)}" cx="{x:.1f}" cy="{y:.1f}" r="2.4" fill="{colour}"/>'


def thinned(placed: Sequence[Tuple[float, float]]) -> Iterator[Tuple[float, float]]:
    """Of points that stand above each other the first, the lowest, the highest and the last, so that a line of a
    million points looks the same and has some thousands."""
    for _, group in groupby(placed, lambda point: f"{point[0]:.1f}"):
        column = list(group)
        if len(column) <= 4:
            yield from column
        else:
            order = sorted(range(len(column)), key=lambda index: column[index][1])
            yield from (column[index] for index in sorted({0, order[0], order[-1], len(column) - 1}))


def _line(path: str, at: int) -> str:
    """A path in the colour and dashes of a line: 25 lines differ."""
    colour = at % len(COLOURS)
    dash = DASHES[(at + at // len(COLOURS)) % len(DASHES)]
    dashed = f' stroke-dasharray="{dash}"' if dash else ""
    return (
        f'<path class="line-{colour}" d="{path}" fill="none" stroke="{COLOURS[colour]}" stroke-width="1.6"'
        f' stroke-linejoin="round"{dashed}/>')


# ---- numbers and text


def ticks(low: float, high: float, parts: int = PARTS) -> List[float]:
    """Round numbers from below `low` to above `high`, some five of them, or as many as said."""
    if high <= low:
        high = low + max(1.0, abs(low) * 1e-9)
    rough = (high - low) / parts
    unit = 10.0 ** math.floor(math.log10(rough))
    step = next(factor * unit for factor in (1, 2, 2.5, 5, 10) if factor * unit >= rough * 0.999)
    first, last = math.floor(low / step), math.ceil(high / step)
    return [at * step for at in range(first, last + 1)]


def spelt(mark: float) -> str:
    """A mark as an axis bears it."""
    return f"{mark:,.10g}"


def fitting(text: str, room: float, size: int = 11) -> str:
    """As much of a text as there is room for."""
    most = max(1, int(room / (LETTER * size / 11)))
    return text if len(text) <= most else text[: most - 1] + "\u2026"


def _text(
    x: float, y: float, text: str, kind: str, size: int = 11, bold: bool = False, anchor: str = "start"
) -> str:
    weight = ' font-weight="bold"' if bold else ""
    return (
        f'<text class="{kind}" x="{x:.1f}" y="{y:.1f}" font-family="sans-serif" font-size="{size}"{weight}'
        f' text-anchor="{anchor}" fill="{INK}">{escape(text)}</text>')
