"""The profile of a journal as a picture: the questions and the signals with the most evaluations, evictions over time, and the cells
that a shard would hold."""
from __future__ import annotations

from collections.abc import Mapping, Sequence
from typing import TYPE_CHECKING

from ..journal.profile import Profile, most_first
from ..limits import MOST_CELLS
from . import figures
from .words import shortened

if TYPE_CHECKING:
    from matplotlib.axes import Axes

MOST_BARS, LEAST_BARS = 12, 8
MOST_LETTERS = 34
_DONE, _AGAIN, _EVICTED, _ROOM = "#4a7fa7", "#d9857f", "#8a5a00", "#5c8f5a"


def profile_picture(profile: Profile, form: str, names: Sequence[str] | None = None, texts: Mapping[int, str] | None = None) -> bytes:
    """The picture as `svg` or `png`. `names` are the signals' names by their numbers, `texts` the lines of the script by theirs."""
    with figures.style():
        figure = figures.figure_of(13.0, 8.6)
        grid = figure.add_gridspec(2, 2, left=0.19, right=0.97, top=0.87, bottom=0.08, hspace=0.38, wspace=0.58)
        _bars(figure.add_subplot(grid[0, 0]), "questions", _questions(profile, texts or {}))
        _bars(figure.add_subplot(grid[0, 1]), "signals", _signals(profile, names))
        _over_time(figure.add_subplot(grid[1, 0]), profile)
        _rooms(figure.add_subplot(grid[1, 1]), profile)
        title = f"{profile.fills:,} evaluations, {profile.again:,} of a point again; {profile.evictions:,} evictions"
        figure.text(0.02, 0.955, title, fontsize=14, ha="left", va="center")
        return figures.bytes_of(figure, form, title)


def _questions(profile: Profile, texts: Mapping[int, str]) -> list[tuple[str, int]]:
    questions = sorted(profile.questions.values(), key=lambda question: (-question.fills, question.line))
    return [(f"{question.line}: {texts[question.line]}" if question.line in texts else f"line {question.line}", question.fills)
            for question in questions]


def _signals(profile: Profile, names: Sequence[str] | None) -> list[tuple[str, int]]:
    return [(names[signal] if names else f"signal {signal}", count) for signal, count in most_first(profile.signals)]


def _bars(axes: Axes, what: str, counts: Sequence[tuple[str, int]]) -> None:
    """The first of the labels with their counts, as bars."""
    bars = counts[:MOST_BARS]
    share = f", the first {len(bars)} of {len(counts):,}" if len(counts) > len(bars) else ""
    _dress(axes, f"{what}, by evaluations{share}")
    places = range(len(bars))
    axes.barh(places, [count for _, count in bars], color=_DONE, height=0.72)
    axes.set_yticks(places, [shortened(label, MOST_LETTERS) for label, _ in bars])
    axes.tick_params(axis="y", length=0, labelsize=9, labelcolor=figures.TEXT)
    axes.set_ylim(max(len(bars), LEAST_BARS) - 0.5, -0.5)
    most = max((count for _, count in bars), default=0)
    axes.set_xlim(0, max(1, most) * 1.18)
    for place, (_, count) in enumerate(bars):
        axes.text(count + max(1, most) * 0.015, place, f"{count:,}", va="center", fontsize=8.5)
    axes.grid(axis="x", color=figures.GRID, linewidth=0.8)


def _over_time(axes: Axes, profile: Profile) -> None:
    """Evaluations and evictions one after another; the axis is the evaluations done so far."""
    _dress(axes, "over time: evaluations again, and evictions, trims too")
    done, again, evicted = [0], [0], [0]
    for stretch in profile.stretches:
        done.append(done[-1] + stretch.fills)
        again.append(again[-1] + stretch.again)
        evicted.append(evicted[-1] + stretch.evictions)
    if not again[-1] and not evicted[-1]:
        axes.text(0.5, 0.5, "nothing was evicted", ha="center", va="center", fontsize=11, transform=axes.transAxes)
        axes.set_xticks([])
        axes.set_yticks([])
        return
    axes.plot(done, again, color=_AGAIN, linewidth=2.4, label="again")
    axes.plot(done, evicted, color=_EVICTED, linewidth=1.8, linestyle=(0, (5, 2)), label="evictions")
    axes.set_xlim(0, max(1, done[-1]))
    axes.set_ylim(0, max(1, again[-1], evicted[-1]) * 1.08)
    axes.set_xlabel("evaluations so far", fontsize=9, color=figures.QUIET)
    axes.legend(loc="upper left", fontsize=9, facecolor="white", edgecolor="none", framealpha=1.0)
    axes.grid(color=figures.GRID, linewidth=0.8)


def _rooms(axes: Axes, profile: Profile) -> None:
    """The cells of the fullest shard for each number of shards."""
    _dress(axes, "--cells that would hold everything, by --shards")
    rooms = profile.rooms()
    most = max(room.cells for room in rooms)
    axes.bar(range(len(rooms)), [room.cells for room in rooms], color=[_ROOM if room.fits else _AGAIN for room in rooms], width=0.7)
    axes.set_xticks(range(len(rooms)), [f"{room.shards}\n(this)" if room.shards == profile.shards else str(room.shards) for room in rooms])
    for place, room in enumerate(rooms):
        axes.text(place, room.cells + most * 0.02, f"{room.cells:,}", ha="center", va="bottom", fontsize=8.5, zorder=5,
                  bbox={"facecolor": "white", "edgecolor": "none", "pad": 0.8})
    axes.set_ylim(0, most * 1.14)
    limits = ((MOST_CELLS, "the most that --cells may be", (0, (4, 2))), (profile.capacity, "this session's --cells", (0, (1, 1.5))))
    for limit, text, dashes in limits:
        if limit <= most * 1.1:
            axes.axhline(limit, color=_EVICTED, linewidth=1.4, linestyle=dashes, label=text, zorder=4)
    if profile.capacity <= most * 1.1:
        axes.legend(loc="upper right", fontsize=9, facecolor="white", edgecolor="none", framealpha=1.0)
    axes.grid(axis="y", color=figures.GRID, linewidth=0.8)


def _dress(axes: Axes, title: str) -> None:
    axes.set_title(title, fontsize=11, loc="left", color=figures.TEXT)
    axes.set_axisbelow(True)
    axes.tick_params(labelsize=9, labelcolor=figures.TEXT)
    from matplotlib.ticker import MaxNLocator, StrMethodFormatter
    for axis in (axes.xaxis, axes.yaxis):
        axis.set_major_locator(MaxNLocator(nbins=5, integer=True))
        axis.set_major_formatter(StrMethodFormatter("{x:,.0f}"))
    for side in ("right", "top"):
        axes.spines[side].set_visible(False)
