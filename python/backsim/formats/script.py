"""The script: the lines of questions that a session reads (docs/use/FORMATS.md, The script)."""
from __future__ import annotations

import re
from collections.abc import Iterable, Iterator
from typing import TextIO

from ..errors import FormatError, type_of_path
from ..limits import LINE_LIMIT, MOST_BUDGETS, MOST_ITEMS, MOST_LENGTHS, SCRIPT_LIMIT, USUAL_BUDGET
from .forms import ValueLine
from .lines import *  # so that whoever reads a script has the kinds of its lines from here
from .lines import FORMS, AtLine, BadScriptLine, Line, WaveLine
from .text import NAME, lines_of, read_bytes, words_of


def read_script(path: type_of_path) -> list[Line]:
    """The lines of a script that aren't blank. FormatError where it can't be read or has more than 16 MiB; a line that is none of
    the forms is no error, but a `BadScriptLine`, as a session replies to it."""
    return list(parse_script(read_bytes(path, SCRIPT_LIMIT)))


def parse_script(data: bytes) -> Iterator[Line]:
    """The lines of a script's bytes that aren't blank."""
    for number, line in enumerate(lines_of(data), 1):
        parsed = parse_line(line, number)
        if parsed is not None:
            yield parsed


# `at` and `wave` lines with one blank between words, and numbers below every limit
_AT = re.compile(rf"at ({NAME.pattern}) ([0-9]{{1,9}})(?: ([0-9]{{1,5}}))?")
_WAVE = re.compile(rf"wave ({NAME.pattern}) ([0-9]{{1,9}}) ([0-9]{{1,9}})(?: ([0-9]{{1,5}}))?")


def _number(digits: str | None) -> int | None:
    return None if digits is None else int(digits)


def parse_line(line: bytes, number: int) -> Line | None:
    """The line, given without its line feed; None where it is blank."""
    text = line.decode("latin-1")
    if len(line) > LINE_LIMIT:
        return BadScriptLine(number=number, text=text)
    # nearly all lines of a long script are such, and are read so in less than half of the time
    if (usual := _AT.fullmatch(text)) is not None:
        return AtLine(usual[1], int(usual[2]), _number(usual[3]), number=number, text=text)
    if (usual := _WAVE.fullmatch(text)) is not None:
        return WaveLine(usual[1], int(usual[2]), int(usual[3]), _number(usual[4]), number=number, text=text)
    words = words_of(line)
    if not words:
        return None
    return _formed(words, number, text) or BadScriptLine(number=number, text=text)


def _formed(words: tuple[str, ...], number: int, text: str) -> Line | None:
    """The line of these words, or None where they have none of the forms, or a number is above its limit."""
    form = FORMS.get(words[0])
    if form is None or not form.least <= len(words) - 1 <= len(form.reads):
        return None
    stated: list[str | int] = []
    for read, word in zip(form.reads, words[1:]):
        value = read(word)
        if value is None:
            return None
        stated.append(value)
    return form.make(*stated, number=number, text=text)


def units(lines: Iterable[Line], horizon: int) -> Iterator[list[Line]]:
    """The lines as they are served: batches of items, and each other line by itself; `go` lines are left out."""
    batch: list[Line] = []
    budgets = lengths = 0
    for line in lines:
        budget, length = _costs(line, horizon)
        if batch and (not line.is_item or budgets + budget > MOST_BUDGETS or lengths + length > MOST_LENGTHS):
            yield batch
            batch, budgets, lengths = [], 0, 0
        if line.is_item:
            batch.append(line)
            budgets, lengths = budgets + budget, lengths + length
            if len(batch) == MOST_ITEMS:
                yield batch
                batch, budgets, lengths = [], 0, 0
        elif line.has_reply:
            yield [line]
    if batch:
        yield batch


def _costs(line: Line, horizon: int) -> tuple[int, int]:
    """The budget and the length of the window of an item, which have sums that a batch does not go above."""
    if not isinstance(line, ValueLine) or not line.is_item:
        return 0, 0
    start, stop = line.window
    budget = USUAL_BUDGET if line.budget is None else line.budget
    return budget, 0 if stop > horizon + 1 else max(0, stop - start)


def write_script(lines: Iterable[Line], stream: TextIO, path: type_of_path = "script") -> None:
    """Writes the lines one after another. FormatError, of the name `path`, before the line with which there were more than 16 MiB."""
    size = 0
    for number, line in enumerate(lines, 1):
        text = f"{line}\n"
        size += len(text)
        if size > SCRIPT_LIMIT:
            raise FormatError(path, number, "with this line the script has more than 16 MiB, which a session refuses")
        stream.write(text)
