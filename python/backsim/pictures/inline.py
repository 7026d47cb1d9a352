"""A wave as a small SVG, without matplotlib: what a notebook shows."""
from __future__ import annotations

from collections.abc import Iterable, Sequence
from html import escape

from ..values import Wave
from .rows import Row
from .shapes import Points, Shapes
from .words import shortened

WIDTH, HEIGHT = 720, 62
_LEFT, _RIGHT, _MIDDLE, _ROW = 8, 8, 32, 36
_INCH = 96
_LETTER = 0.075
_FONT = "font-family='DejaVu Sans, Verdana, sans-serif'"
# of each kind of area its ground and its border
_AREAS = {"high": ("#dcebf7", "none"), "x": ("#fdeae8", "#b3261e"), "bus": ("#eef4ea", "#163a56"), "part": ("#fff4d6", "#8a5a00"),
          "busy": ("#5f7d94", "none")}
_LINES = {"line": "stroke='#163a56' stroke-width='1.5'", "z": "stroke='#8a5a00' stroke-dasharray='4 3'",
          "unknown": "stroke='#9aa3ad' stroke-dasharray='1 3'"}


def svg_of(wave: Wave) -> str:
    """The wave as one row with its name and the ends of its window. x is a red band, z a dashed middle line; a stretch with more changes
    than it has room for is a solid band."""
    if wave.start >= wave.stop:
        return _framed(wave, [])
    unit = (WIDTH - _LEFT - _RIGHT) / _INCH / (wave.stop - wave.start)
    shapes = Shapes(wave.start, wave.stop, "hex", unit, _LETTER)
    shapes.add_row(0.0, Row(wave.name, (wave,)))

    def placed(points: Points) -> str:
        return " ".join(f"{_LEFT + (time - wave.start) * unit * _INCH:.1f},{_MIDDLE - y * _ROW:.1f}" for time, y in points)

    drawn = [f"<polygon points='{placed(points)}' fill='{_AREAS[kind][0]}' stroke='{_AREAS[kind][1]}'/>"
             for kind in _AREAS for points in shapes.areas[kind]]
    drawn += [f"<polyline points='{placed(points)}' fill='none' {_LINES[kind]}/>" for kind in _LINES for points in shapes.lines[kind]]
    drawn += [_text(placed([(time, y)]), text) for time, y, text in (*shapes.texts, *shapes.values)]
    return _framed(wave, drawn)


def _text(place: str, text: str) -> str:
    x, y = place.split(",")
    return f"<text x='{x}' y='{float(y) + 4:.1f}' text-anchor='middle' font-size='11' {_FONT}>{escape(text)}</text>"


def _framed(wave: Wave, drawn: Sequence[str]) -> str:
    last = wave.stop - 1
    ends = (f"<text x='{_LEFT}' y='{HEIGHT - 4}' font-size='10' fill='#56606b' {_FONT}>{wave.start:,}</text>"
            f"<text x='{WIDTH - _RIGHT}' y='{HEIGHT - 4}' font-size='10' fill='#56606b' text-anchor='end' {_FONT}>{last:,}</text>")
    name = f"<text x='{_LEFT}' y='12' font-size='12' font-weight='bold' {_FONT}>{escape(shortened(wave.name, 80))}</text>"
    return (f"<svg xmlns='http://www.w3.org/2000/svg' width='{WIDTH}' height='{HEIGHT}' viewBox='0 0 {WIDTH} {HEIGHT}' role='img' "
            f"aria-label='{escape(wave.name, quote=True)} from {wave.start} to {last}'><rect width='100%' height='100%' fill='white'/>"
            f"{name}{''.join(drawn)}{ends}</svg>")


def table_of(heads: Sequence[str], rows: Iterable[Sequence[object]], most: int = 200) -> str:
    """A table in HTML, of more than `most` rows the first and a count."""
    every = list(rows)
    shown = "".join("<tr>" + "".join(f"<td>{escape(str(cell))}</td>" for cell in row) + "</tr>" for row in every[:most])
    rest = f"<caption>{len(every) - most:,} more rows</caption>" if len(every) > most else ""
    return f"<table>{rest}<thead><tr>{''.join(f'<th>{escape(head)}</th>' for head in heads)}</tr></thead><tbody>{shown}</tbody></table>"
