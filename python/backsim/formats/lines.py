"""The kinds of lines of a script, each with the reply to it (docs/use/FORMATS.md, The script and Replies): a line's word, what it states in
order, what answers it, and how a reply of its own form is read. `script` and `replies` read all the kinds that `Line` lists."""
from __future__ import annotations

from collections.abc import Callable
from typing import TYPE_CHECKING, Any, NamedTuple, Union, get_args

from ..records import dataclass
from ..values import LOGIC, Answer, At, BadLine, Dump, First, Proof, ProofCell, Stats, Stuck, Trimmed, Wave
from .forms import BUDGET, READ, AnyLine, PointLine, Read, WindowLine
from .proof import cell_of, claim_of, plain_number, plain_numbers
from .text import is_name

if TYPE_CHECKING:
    from .replies import ReplyReader

__all__ = ["AtLine", "BadScriptLine", "FirstLine", "Go", "Line", "StatsLine", "StuckLine", "Trim", "VcdLine", "WaveLine", "WhyLine"]
_HELD = ("0", "1")


def _held(word: str) -> str | None:
    return word if word in _HELD else None


@dataclass(slots=True, unsafe_hash=True)
class WaveLine(WindowLine):
    """Asks for the waveform of `name` from `start` up to, and not with, `stop`."""

    name: str
    start: int
    stop: int
    budget: int | None = None
    word = "wave"
    is_item = True
    answer = Wave

    # as in general, but such lines are asked by the ten thousand
    @property
    def head(self) -> str:
        return f"wave {self.name} {self.start} {self.stop}"

    @staticmethod
    def read_reply(reader: ReplyReader, words: list[str]) -> Wave | None:
        times = plain_numbers(words[2:])
        if len(words) != 4 or times is None or not is_name(words[1]):
            return None
        return _wave_of(reader, words[1], times, f"`wave {words[1]}`")


@dataclass(slots=True, unsafe_hash=True)
class AtLine(PointLine):
    """Asks for the value of `name` at `time`."""

    name: str
    time: int
    budget: int | None = None
    word = "at"
    is_item = True
    answer = At

    @property
    def head(self) -> str:
        return f"at {self.name} {self.time}"

    @staticmethod
    def read_reply(reader: ReplyReader, words: list[str]) -> At | None:
        time = plain_number(words[2]) if len(words) == 4 and is_name(words[1]) and words[3] in LOGIC else None
        return None if time is None else At(words[1], time, words[3])


@dataclass(slots=True, unsafe_hash=True)
class FirstLine(WindowLine):
    """Asks for the first time from `start` up to, and not with, `stop` at which `name` has the value."""

    name: str
    value: str
    start: int
    stop: int
    budget: int | None = None
    word = "first"
    answer = First

    @staticmethod
    def read_reply(reader: ReplyReader, words: list[str]) -> First | None:
        if len(words) != 6 or not is_name(words[1]) or words[2] not in LOGIC:
            return None
        start, stop, time = map(plain_number, words[3:])
        if start is None or stop is None or time is None and words[5] != "none" or time is not None and not start <= time < stop:
            return None
        return First(words[1], words[2], start, stop, time)


@dataclass(slots=True, unsafe_hash=True)
class WhyLine(PointLine):
    """Asks why `name` has the value that it has at `time`."""

    name: str
    time: int
    budget: int | None = None
    word = "why"
    answer = Proof

    @staticmethod
    def read_reply(reader: ReplyReader, words: list[str]) -> Proof | None:
        claim = claim_of(words)
        if claim is None:
            return None
        cells: list[ProofCell] = []
        for inner in reader.inner_lines(f"`why {claim[0]} {claim[1]}`"):
            cell = cell_of(inner)
            if cell is None:
                raise reader.fault("expected `cell SIGNAL START END VALUE` or `end`")
            cells.append(cell)
        return Proof(*claim, tuple(cells))


@dataclass(slots=True, unsafe_hash=True)
class StuckLine(WindowLine):
    """Asks for the waveform of `name` where `site` has the value `0` or `1` at all times."""

    site: str
    value: str
    name: str
    start: int
    stop: int
    budget: int | None = None
    word = "stuck"
    answer = Stuck
    own_words = {"value": _held}

    def has_name(self, name: str) -> bool:
        return name in (self.name, self.site)

    def fits(self, answer: Answer) -> bool:
        if not isinstance(answer, Stuck):
            return WindowLine.fits(self, answer)
        wave = answer.wave
        return (answer.site, answer.value, wave.name, wave.start, wave.stop) == (self.site, self.value, self.name, self.start, self.stop)

    @staticmethod
    def read_reply(reader: ReplyReader, words: list[str]) -> Stuck | None:
        times = plain_numbers(words[4:])
        if len(words) != 6 or times is None or not (is_name(words[1]) and is_name(words[3])) or words[2] not in _HELD:
            return None
        return Stuck(words[1], words[2], _wave_of(reader, words[3], times, f"`stuck {words[1]} {words[2]} {words[3]}`"))


@dataclass(slots=True, unsafe_hash=True)
class Go(AnyLine):
    """Runs the pending batch."""

    word = "go"
    has_reply = False


@dataclass(slots=True, unsafe_hash=True)
class Trim(AnyLine):
    """Evicts the least recent cells of every shard until at most `cells` are left in each."""

    cells: int
    word = "trim"
    answer = Trimmed
    reply_word = "trimmed"

    @staticmethod
    def read_reply(reader: ReplyReader, words: list[str]) -> Trimmed | None:
        numbers = plain_numbers(words[1:])
        return Trimmed(*numbers) if len(words) == 2 and numbers is not None else None


@dataclass(slots=True, unsafe_hash=True)
class StatsLine(AnyLine):
    """Asks for the counts of the session."""

    word = "stats"
    answer = Stats

    @staticmethod
    def read_reply(reader: ReplyReader, words: list[str]) -> Stats | None:
        numbers = plain_numbers(words[2::2])
        names = ["batches", "fills", "evictions", "cells"]
        return Stats(*numbers) if len(words) == 9 and words[1::2] == names and numbers is not None else None


@dataclass(slots=True, unsafe_hash=True)
class VcdLine(AnyLine):
    """Asks for a dump of the last batch in this file."""

    file: str
    word = "vcd"
    answer = Dump

    def fits(self, answer: Answer) -> bool:
        return isinstance(answer, Dump) and answer.file in (None, self.file)

    @staticmethod
    def read_reply(reader: ReplyReader, words: list[str]) -> Dump | None:
        if words[1:] in (["none"], ["full"]):
            return Dump(words[1])
        if len(words) == 3 and words[1] == "taken" and is_name(words[2]):
            return Dump("taken", words[2])
        wires = plain_number(words[3]) if len(words) == 4 and is_name(words[1]) and words[2] == "wires" else None
        return None if wires is None else Dump("written", words[1], wires)


@dataclass(slots=True, unsafe_hash=True)
class BadScriptLine(AnyLine):
    """A line that has none of the forms, or a number above its limit, or more than 4,096 bytes."""

    is_item = True
    answer = BadLine
    reply_word = "error"

    def __str__(self) -> str:
        return self.text

    def fits(self, answer: Answer) -> bool:
        return isinstance(answer, BadLine) and answer.number == self.number

    @staticmethod
    def read_reply(reader: ReplyReader, words: list[str]) -> BadLine | None:
        numbers = plain_numbers(words[2:])
        return BadLine(*numbers) if len(words) == 3 and words[1] == "line" and numbers is not None else None


Line = Union[WaveLine, AtLine, FirstLine, WhyLine, StuckLine, Go, Trim, StatsLine, VcdLine, BadScriptLine]


def _wave_of(reader: ReplyReader, name: str, times: tuple[int, ...], what: str) -> Wave:
    """The waveform of a reply, `what`, whose other lines are in the reader."""
    start, stop = times
    runs: list[tuple[int, str]] = []
    for words in reader.inner_lines(what):
        time = plain_number(words[0]) if len(words) == 2 and words[1] in LOGIC else None
        if time is None or runs and time <= runs[-1][0]:
            raise reader.fault(f"expected a line `T V` of {what}, with T above that of the line before, or `end`")
        runs.append((time, words[1]))
    if start < stop and (not runs or runs[0][0] != start or runs[-1][0] >= stop) or start >= stop and runs:
        raise reader.fault(f"the lines of {what} are not those of its window, {start} to {stop}")
    return Wave(name, start, stop, tuple(runs))


class Form(NamedTuple):
    """How a line of a kind stands in a script: `make` makes it of the words behind the first one, each read by one of `reads`. There are at
    least so many; the last one is the budget, where the kind takes one."""

    make: Callable[..., Line]
    reads: tuple[Read, ...]
    least: int


def _form_of(kind: type[Any]) -> Form:
    names = kind.__match_args__
    own = {**READ, **kind.own_words}
    return Form(kind, tuple(own[name] for name in names), len(names) - (BUDGET in names))


_KINDS: tuple[type[Any], ...] = get_args(Line)
# by the first words of lines; and how replies are read, by their first words
FORMS = {kind.word: _form_of(kind) for kind in _KINDS if kind is not BadScriptLine}
REPLIES: dict[str, Callable[[ReplyReader, list[str]], Answer | None]] = {
    kind.reply_word or kind.word: kind.read_reply for kind in _KINDS if kind.has_reply}
