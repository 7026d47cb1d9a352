"""Timing diagrams: a row for each wave over one axis of time. 0 and 1 are lines, x is a hatched band, z a middle line, and a bus a band
with its value; where nothing is known, the row has a dotted line."""
from __future__ import annotations

from collections.abc import Sequence
from typing import TYPE_CHECKING

from ..errors import UsageError
from . import figures
from .rows import Row
from .shapes import Shapes
from .words import shortened

if TYPE_CHECKING:
    from matplotlib.axes import Axes
    from matplotlib.figure import Figure

MOST_ROWS = 64
MOST_LETTERS, MOST_TITLE = 48, 100
WIDTH = 11.0
_LINE, _HIGH, _BUS = "#163a56", "#dcebf7", "#eef4ea"
_BUSY = "#5f7d94"
_X, _X_GROUND, _Z = "#b3261e", "#fdeae8", "#8a5a00"
_UNKNOWN, _MARK = "#9aa3ad", "#0b57d0"


def waves_picture(rows: Sequence[Row], form: str, *, start: int | None = None, stop: int | None = None, radix: str = "hex",
                  marks: Sequence[int] = (), title: str = "", unit: str = "") -> bytes:
    """The diagram as `svg` or `png`, of 1 to 64 rows, from `start` on and before `stop`; where these are left out, of all times that a
    row has. `radix` is that of the values of buses, one of RADIXES; `marks` are times at which a vertical line stands, and
    `unit` says what a unit of time is, where that is known. UsageError where there is no row, or too many, or no time."""
    if not 1 <= len(rows) <= MOST_ROWS:
        raise UsageError(f"there are {len(rows)} waves, and a picture has from 1 to {MOST_ROWS}: name those to draw")
    begin, end = _window(rows, start, stop)
    with figures.style():
        return _Diagram(rows, begin, end, radix, title, unit).picture(form, marks)


def _window(rows: Sequence[Row], start: int | None, stop: int | None) -> tuple[int, int]:
    waves = [wave for row in rows for wave in row.waves]
    begin = start if start is not None else min((wave.start for wave in waves), default=0)
    end = stop if stop is not None else max((wave.stop for wave in waves), default=0)
    if begin >= end:
        raise UsageError(f"there is no time to draw from {begin} on and before {end}")
    return begin, end


class _Diagram:
    """One diagram. Lengths are in inches where nothing else is said; y counts the rows downward from 0."""

    def __init__(self, rows: Sequence[Row], start: int, stop: int, radix: str, title: str, unit: str) -> None:
        self.rows, self.start, self.stop, self.radix, self.title, self.unit = rows, start, stop, radix, title, unit
        self.pitch = 0.5 if len(rows) <= 12 else 0.42 if len(rows) <= 32 else 0.34
        self.size = 11.0 if len(rows) <= 12 else 10.0 if len(rows) <= 32 else 9.0
        self.labels = [shortened(row.label, MOST_LETTERS) for row in rows]

    def picture(self, form: str, marks: Sequence[int]) -> bytes:
        top, bottom, right = (0.62 if self.title else 0.3) + (0.25 if len(self.rows) > 12 or marks else 0.0), 0.72, 0.45
        height = top + self.pitch * len(self.rows) + bottom
        figure = figures.figure_of(WIDTH, height)
        left = 0.3 + max(figures.width_of(figure, label, self.size) for label in self.labels)
        width = max(WIDTH, left + 5.0 + right)
        figure.set_size_inches(width, height)
        axes = figure.add_axes((left / width, bottom / height, (width - left - right) / width, self.pitch * len(self.rows) / height))
        letter = figures.width_of(figure, "0" * 20, self.size - 1, family="DejaVu Sans Mono") / 20
        shapes = Shapes(self.start, self.stop, self.radix, (width - left - right) / (self.stop - self.start), letter)
        for place, row in enumerate(self.rows):
            shapes.add_row(-place, row)
        self.draw(axes, shapes)
        self.dress(figure, axes, marks, height)
        legend = _legend(shapes)
        figure.text(1 - right / width, 0.2 / height, legend, fontsize=9, ha="right", va="center", color=figures.QUIET)
        return figures.bytes_of(figure, form, self.title or "waves")

    def draw(self, axes: Axes, shapes: Shapes) -> None:
        from matplotlib.collections import LineCollection, PolyCollection
        faces = {"high": (_HIGH, "none", None), "bus": (_BUS, _LINE, None), "part": (_X_GROUND, _LINE, None),
                 "x": (_X_GROUND, _X, "////"), "busy": (_BUSY, _BUSY, None)}
        for key, (face, edge, hatch) in faces.items():
            if shapes.areas[key]:
                axes.add_collection(PolyCollection(shapes.areas[key], facecolors=face, edgecolors=edge, hatch=hatch, linewidths=1.1,
                                                   joinstyle="round", zorder=2))
        strokes = {"unknown": (_UNKNOWN, 1.0, (0, (1, 3))), "z": (_Z, 2.2, (0, (5, 2))), "line": (_LINE, 1.6, "solid")}
        for key, (colour, width, dashes) in strokes.items():
            if shapes.lines[key]:
                axes.add_collection(LineCollection(shapes.lines[key], colors=colour, linewidths=width, linestyles=[dashes],
                                                   joinstyle="miter", zorder=3))
        for x, y, text in shapes.texts:
            axes.text(x, y, text, ha="center", va="center_baseline", fontsize=self.size - 1, family="DejaVu Sans Mono", zorder=4)
        for x, y, text in shapes.values:
            axes.text(x, y, text, ha="center", va="center_baseline", fontsize=self.size - 1, family="DejaVu Sans Mono", zorder=4,
                      color=_X if "x" in text.lower() else figures.TEXT, bbox={"facecolor": "white", "edgecolor": "none", "pad": 1.0})
        if shapes.dots:
            axes.plot(*zip(*shapes.dots), linestyle="none", marker=".", markersize=4, color=figures.QUIET, zorder=3)

    def dress(self, figure: Figure, axes: Axes, marks: Sequence[int], height: float) -> None:
        """The axes, labels, marks and title."""
        from matplotlib.ticker import MaxNLocator, StrMethodFormatter
        axes.set_xlim(self.start, self.stop)
        axes.set_ylim(-len(self.rows) + 0.5, 0.5)
        axes.set_yticks([-place for place in range(len(self.rows))], self.labels)
        axes.tick_params(axis="y", length=0, labelsize=self.size, labelcolor=figures.TEXT, pad=8)
        room = axes.get_position().width * figure.get_figwidth() / (figures.width_of(figure, f"{self.stop:,}", 9.5) + 0.3)
        axes.xaxis.set_major_locator(MaxNLocator(nbins=max(2, min(12, int(room))), integer=True))
        axes.xaxis.set_major_formatter(StrMethodFormatter("{x:,.0f}"))
        axes.tick_params(axis="x", labelsize=9.5, labelcolor=figures.TEXT, labeltop=len(self.rows) > 12 and not marks)
        axes.grid(axis="x", color=figures.GRID, linewidth=0.8, zorder=0)
        axes.set_axisbelow(True)
        for side in ("left", "right", "top"):
            axes.spines[side].set_visible(False)
        axes.set_xlabel(f"time in units of {self.unit}" if self.unit else "time", fontsize=9.5, color=figures.QUIET)
        reached = -1.0
        for time in sorted(time for time in set(marks) if self.start <= time <= self.stop):
            axes.axvline(time, color=_MARK, linewidth=1.3, linestyle=(0, (4, 2)), zorder=5)
            place = (time - self.start) / (self.stop - self.start) * axes.get_position().width * figure.get_figwidth()
            half = figures.width_of(figure, f"{time:,} ", 9.5) / 2
            if place - half > reached:
                axes.annotate(f"{time:,}", (time, 0.5), ha="center", va="bottom", fontsize=9.5, color=_MARK, annotation_clip=False)
                reached = place + half
        if self.title:
            figure.text(0.3 / figure.get_figwidth(), 1 - 0.34 / height, shortened(self.title, MOST_TITLE), fontsize=13, ha="left",
                        va="center")


def _legend(shapes: Shapes) -> str:
    """What the reader may not know of the signs that are used."""
    signs = {"hatched: x": shapes.areas["x"], "dashed middle line: z": shapes.lines["z"],
             "dotted: not asked": shapes.lines["unknown"],
             "solid: changes too close to draw": shapes.areas["busy"],
             "a point: a value without room for its letter": shapes.dots, "X: some bits of the digit are unknown": shapes.areas["part"]}
    return "     ".join(text for text, used in signs.items() if used)
