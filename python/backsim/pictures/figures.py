"""Figures by matplotlib, which is imported when the first is made."""
from __future__ import annotations

import io
import os
import tempfile
from collections.abc import Iterator
from contextlib import contextmanager
from typing import TYPE_CHECKING, Any

from ..errors import MissingExtra

if TYPE_CHECKING:
    from matplotlib.figure import Figure

FORMS = ("svg", "png")
TEXT, QUIET, GRID = "#1d2329", "#56606b", "#dde2e7"
# Letters are drawn as outlines in SVG, so that they fit wherever the picture is looked at; and the same figure has the same bytes.
_STYLE = {"font.family": "DejaVu Sans", "svg.fonttype": "path", "svg.hashsalt": "backsim", "hatch.linewidth": 0.7,
          "text.color": TEXT, "axes.edgecolor": QUIET, "xtick.color": QUIET, "ytick.color": QUIET, "axes.unicode_minus": False}


@contextmanager
def style() -> Iterator[Any]:
    """The module `matplotlib`, with the style of the figures while the block runs. MissingExtra where it is not there."""
    if "MPLCONFIGDIR" not in os.environ and not os.access(os.path.expanduser("~"), os.W_OK):
        os.environ["MPLCONFIGDIR"] = tempfile.gettempdir()
    try:
        import matplotlib
    except ImportError:
        raise MissingExtra("matplotlib", "pictures", "python3-matplotlib") from None
    # a name may have dollar signs, which would be taken for the marks of a formula
    plain = {"text.parse_math": False} if "text.parse_math" in matplotlib.rcParams else {}
    with matplotlib.rc_context(_STYLE | plain):
        yield matplotlib


def figure_of(width: float, height: float) -> Figure:
    """An empty figure of this size in inches."""
    from matplotlib.backends.backend_agg import FigureCanvasAgg
    from matplotlib.figure import Figure
    figure = Figure(figsize=(width, height), facecolor="white")
    FigureCanvasAgg(figure)
    return figure


def bytes_of(figure: Figure, form: str, title: str) -> bytes:
    """The figure as `svg` or `png`; the title is kept with it."""
    stream = io.BytesIO()
    kept = {"Title": title, "Date": None} if form == "svg" else {"Title": title, "Software": None}
    figure.savefig(stream, format=form, dpi=130, metadata=kept)
    return stream.getvalue()


def width_of(figure: Figure, text: str, size: float, **style: Any) -> float:
    """How wide a text is in inches, at a size in points."""
    from matplotlib.text import Text
    measured = Text(0, 0, text, fontsize=size, figure=figure, **style)
    width: float = measured.get_window_extent(figure.canvas.get_renderer(), dpi=figure.dpi).width / figure.dpi
    return width
