"""Patterns: a line of 0, 1 and x for each, the inputs in the order of the netlist, applied one after another."""
from __future__ import annotations

from collections.abc import Sequence

from ..command_line.partial import refuse_partial
from ..errors import FormatError, type_of_path
from ..formats.netlist import Netlist
from ..formats.stimulus import Stimulus
from ..formats.text import content_of, lines_of, read_foreign
from ..limits import MOST_TIME
from ..records import dataclass
from .build import constant_value


@dataclass(frozen=True, slots=True)
class Patterns:
    """The patterns of a file: a word of 0, 1 and x for each, a letter for each of `inputs`."""

    path: str
    inputs: tuple[str, ...]
    words: tuple[str, ...]


def read_patterns(path: type_of_path, netlist: Netlist) -> Patterns:
    """The patterns of a file. Blanks between the letters and what follows `#` count as nothing. Inputs that stand for constants
    (`vdd`, `gnd`) may have no letter. FormatError at a line with another letter, or with more or fewer letters than inputs, and where an
    interrupted command left the file."""
    signals = tuple(name for name in netlist.inputs if constant_value(name) is None)
    words: list[str] = []
    inputs: tuple[str, ...] | None = None
    for number, line in enumerate(lines_of(read_foreign(path)), 1):
        refuse_partial(line, path, number)
        word = content_of(line).replace(" ", "").lower()
        if not word:
            continue
        foreign = word.strip("01x")
        if foreign:
            raise FormatError(path, number, f"a pattern has the letters 0, 1 and x, and not {ascii(foreign[0])}")
        own = netlist.inputs if len(word) == len(netlist.inputs) else signals
        if len(word) != len(own) or own != (inputs or own):
            raise FormatError(path, number, f"the pattern has {len(word)} letters, and there are {len(inputs or signals)} inputs")
        inputs = own
        words.append(word)
    if inputs is None:
        raise FormatError(path, None, "there is no pattern in the file")
    return Patterns(str(path), inputs, tuple(words))


def stimulus_of(patterns: Patterns, netlist: Netlist, period: int, first: int = 0) -> Stimulus:
    """The stimulus that applies pattern k, counted from 0, at `first` + k * `period`, and ends directly before the
    next would come; an input is set where its value changes. FormatError where that is above 1,000,000."""
    horizon = first + len(patterns.words) * period - 1
    if horizon > MOST_TIME:
        raise FormatError(patterns.path, None, f"{len(patterns.words)} patterns with a period of {period} end at {horizon}, above "
                          f"{MOST_TIME}: take a shorter period, or divide the patterns over several files")
    settings: dict[str, list[tuple[int, str]]] = {}
    for place, name in enumerate(patterns.inputs):
        settings[name] = _changes([word[place] for word in patterns.words], period, first)
    for name in netlist.inputs:
        value = constant_value(name)
        if name not in settings and value is not None:
            settings[name] = [(0, value)]
    return Stimulus(horizon, {name: own for name, own in settings.items() if own})


def _changes(values: Sequence[str], period: int, first: int) -> list[tuple[int, str]]:
    """The settings of an input, which is x before its first one."""
    before = ["x", *values]
    return [(first + number * period, value) for number, value in enumerate(values) if value != before[number]]
