"""What a session answers, as small values that can be compared, printed and used as keys.

Times are whole numbers from 0 on, in the unit that the circuit's files have. A logic value is one of the strings `0`, `1`, `x` and
`z`. A window from `start` to `stop` holds the times t with `start <= t < stop`. Each class is the answer to one form of line of a
script (docs/use/FORMATS.md, Replies), which `formats.lines` has."""
from __future__ import annotations

from bisect import bisect_right
from collections.abc import Iterator
from dataclasses import field
from typing import TYPE_CHECKING, Any, Union

from .errors import MissingExtra, NoValue

if TYPE_CHECKING:
    from numpy import ndarray
    from pandas import DataFrame

from .records import dataclass

# the names that the package has from here
__all__ = ["Answer", "At", "BadLine", "Budget", "Dump", "First", "Past", "Proof", "ProofCell", "Refusal", "Stats", "Stuck", "Trimmed", "Unknown",
           "Wave"]
LOGIC = ("0", "1", "x", "z")
# comes after every value, so that a search for a time with it finds what is set at this time or before
AFTER_VALUES = "~"


@dataclass(frozen=True, slots=True)
class _OfSignal:
    """What is said of the signal of this name."""

    name: str


@dataclass(frozen=True, slots=True)
class _InWindow(_OfSignal):
    """What is said of a signal in a window."""

    start: int
    stop: int


@dataclass(frozen=True, slots=True)
class _AtTime(_OfSignal):
    """That a signal has the value at the time."""

    time: int
    value: str


@dataclass(frozen=True, slots=True)
class Wave(_InWindow):
    """The waveform of a signal in a window. `changes` holds (time, value) for each maximal run, the first at `start`; it is empty
    where the window is. Of a bus each value is a word of 0, 1, x and z, the leftmost bit first."""

    changes: tuple[tuple[int, str], ...]

    def value_at(self, time: int) -> str:
        """The value at a time of the window. IndexError where the time is not in it."""
        if not self.start <= time < self.stop:
            raise IndexError(f"{time} is not in the window of {self.name}, {self.start} to {self.stop}")
        return self.changes[bisect_right(self.changes, (time, AFTER_VALUES)) - 1][1]

    def __iter__(self) -> Iterator[tuple[int, int, str]]:
        """The runs in order, as (start, stop, value)."""
        for place, (time, value) in enumerate(self.changes):
            after = self.changes[place + 1][0] if place + 1 < len(self.changes) else self.stop
            yield time, after, value

    def __len__(self) -> int:
        """How many runs it has."""
        return len(self.changes)

    def to_numpy(self) -> ndarray[Any, Any]:
        """The runs as an array of numpy with the fields `start`, `stop` (whole numbers) and `value` (text). MissingExtra where numpy is
        not there."""
        try:
            import numpy
        except ImportError:
            raise MissingExtra("numpy", "numbers", "python3-numpy") from None
        width = max((len(value) for _, value in self.changes), default=1)
        return numpy.array(list(self), dtype=[("start", "i8"), ("stop", "i8"), ("value", f"U{width}")])

    def to_pandas(self) -> DataFrame:
        """The runs as a table of pandas with the columns `start`, `stop`, `value` (text) and `number`, that of a word of 0 and 1, else
        None. MissingExtra where pandas is not there."""
        try:
            from pandas import DataFrame
        except ImportError:
            raise MissingExtra("pandas", "numbers", "python3-pandas") from None
        rows = [(start, stop, value, None if value.strip("01") else int(value, 2)) for start, stop, value in self]
        table = DataFrame(rows, columns=["start", "stop", "value", "number"])
        # a column of whole numbers with gaps, as long as these fit
        return table.astype({"number": "Int64"}) if all(len(value) < 64 for _, value in self.changes) else table

    def _repr_svg_(self) -> str:
        from .pictures.inline import svg_of
        return svg_of(self)

    def _repr_html_(self) -> str:
        from .pictures.inline import svg_of, table_of
        count = f"{len(self):,} run{'s' if len(self) != 1 else ''}"
        return f"{svg_of(self)}<details><summary>{count}</summary>{table_of(('from', 'before', 'value'), self)}</details>"


@dataclass(frozen=True, slots=True)
class At(_AtTime):
    """The value of a signal at one time."""


@dataclass(frozen=True, slots=True)
class First(_OfSignal):
    """The first time of a window at which a signal has a value; `time` is None where there is none."""

    value: str
    start: int
    stop: int
    time: int | None


@dataclass(frozen=True, slots=True)
class ProofCell:
    """The signal with this number has the value at the times from `start` on and below `end`, for one cause."""

    signal: int
    start: int
    end: int
    value: str


@dataclass(frozen=True, slots=True)
class Proof(_AtTime):
    """Why the signal has the value at the time: cells, each of which follows from those before it (docs/meaning/RULES.md)."""

    cells: tuple[ProofCell, ...]

    def __len__(self) -> int:
        """How many cells it has."""
        return len(self.cells)

    def __iter__(self) -> Iterator[ProofCell]:
        """The cells in order."""
        return iter(self.cells)

    def _repr_html_(self) -> str:
        from html import escape

        from .pictures.inline import table_of
        rows = ((cell.signal, cell.start, cell.end, cell.value) for cell in self.cells)
        return (f"<p>{escape(self.name)} is {self.value} at {self.time:,}, by {len(self):,} cells</p><details><summary>cells</summary>"
                f"{table_of(('signal', 'from', 'before', 'value'), rows)}</details>")


@dataclass(frozen=True, slots=True)
class Stuck:
    """The waveform that a signal would have if the signal `site` had the value, `0` or `1`, at all times."""

    site: str
    value: str
    wave: Wave

    def _repr_svg_(self) -> str:
        return self.wave._repr_svg_()

    def _repr_html_(self) -> str:
        from html import escape
        return f"<p>with {escape(self.site)} stuck at {self.value}</p>{self.wave._repr_html_()}"


class _WithoutValue:
    """An answer that says why there is no value. `str(answer)` is a sentence; whoever takes such an answer for another gets NoValue with
    it."""

    __slots__ = ()

    def _repr_html_(self) -> str:
        from html import escape
        return f"<p>{escape(str(self))}</p>"

    # a checker of types has to see that these answers have no value
    if not TYPE_CHECKING:

        def __getattr__(self, name: str) -> Any:
            if name.startswith("_"):
                raise AttributeError(f"{type(self).__name__!r} has no attribute {name!r}")
            raise NoValue(f"this answer is {type(self).__name__} and has no `{name}`: {self}", name)

        def __iter__(self) -> Any:
            raise NoValue(f"this answer is {type(self).__name__} and has no parts: {self}", "__iter__")


@dataclass(frozen=True, slots=True)
class Unknown(_WithoutValue, _OfSignal):
    """The netlist has no signal of this name. `nearest` lists names of the netlist that are like it, the most alike first."""

    nearest: tuple[str, ...] = field(default=(), compare=False)

    def __str__(self) -> str:
        near = f"; near it: {', '.join(self.nearest)}" if self.nearest else ""
        return f"the netlist has no signal {self.name}{near}"


@dataclass(frozen=True, slots=True)
class Past(_WithoutValue, _InWindow):
    """The window ends after the horizon: `stop` may be at most the horizon plus 1."""

    def __str__(self) -> str:
        return f"of {self.name} the time {self.stop - 1:,} was asked, which is after the horizon"


@dataclass(frozen=True, slots=True)
class Budget(_WithoutValue, _OfSignal):
    """So many evaluations did not suffice; nothing is said of the value."""

    budget: int

    def __str__(self) -> str:
        return f"{self.budget:,} evaluations did not suffice for {self.name}; a greater `budget` may"


@dataclass(frozen=True, slots=True)
class BadLine(_WithoutValue):
    """The line with this number of the script has none of the forms."""

    number: int

    def __str__(self) -> str:
        return f"the line {self.number} of the script has none of the forms"


@dataclass(frozen=True, slots=True)
class Trimmed:
    """So many cells were evicted in all shards."""

    cells: int


@dataclass(frozen=True, slots=True)
class Stats:
    """The counts of a session so far: batches served, evaluations (fills), evicted cells, and cells that are stored now."""

    batches: int
    fills: int
    evictions: int
    cells: int


@dataclass(frozen=True, slots=True)
class Dump:
    """What became of a `vcd` line. `outcome` is `written`, `taken` (the name is one of the session's files), `none` (no batch was
    served before) or `full` (three dumps were made); `file` is None with `none` and `full`, `wires` counts what was written."""

    outcome: str
    file: str | None = None
    wires: int = 0


@dataclass(frozen=True, slots=True)
class Refusal:
    """The program refused a file: `file` is `netlist`, `timing`, `stimulus` or `script`. `line` and `cause` are None where the
    file is too long; line 0 means that no line is at fault."""

    file: str
    line: int | None = None
    cause: int | None = None


Answer = Union[Wave, At, First, Proof, Stuck, Unknown, Past, Budget, BadLine, Trimmed, Stats, Dump, Refusal]
