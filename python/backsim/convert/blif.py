"""What a BLIF file says of flip-flops: the lines `.latch PIN NAME re CLOCK FIRST` that Yosys and ABC write."""
from __future__ import annotations

from collections.abc import Iterator

from ..errors import FormatError, type_of_path
from ..formats.text import content_of, lines_of, read_foreign
from ..records import dataclass

_FALLS = {"re": False, "fe": True}


@dataclass(frozen=True, slots=True)
class Latch:
    """A flip-flop: the signal of its clock, whether the falls of it count, and the initial value, `0`, `1` or `x`."""

    clock: str
    is_falling: bool
    initial: str


def read_latches(path: type_of_path) -> dict[str, Latch]:
    """The flip-flops of a file by their names. FormatError where the file is no BLIF, or a latch is none that an edge writes."""
    found: dict[str, Latch] = {}
    has_model = False
    for number, words in _rows(path):
        if words[0] == ".model":
            has_model = True
        elif not has_model:
            raise FormatError(path, number, f"a BLIF file begins with .model, and not with `{ascii(words[0][:40])[1:-1]}`")
        elif words[0] == ".latch":
            if len(words) not in (5, 6) or words[3] not in _FALLS:
                raise FormatError(path, number, f"no flip-flop with a clock's edge: `{' '.join(words)[:80]}`")
            if words[2] in found:
                raise FormatError(path, number, f"an earlier line has the flip-flop {words[2]}")
            first = words[5] if len(words) == 6 else "3"
            if first not in ("0", "1", "2", "3"):
                raise FormatError(path, number, f"the initial value {first} is none of 0, 1, 2 and 3")
            found[words[2]] = Latch(words[4], _FALLS[words[3]], first if first in "01" else "x")
    if not has_model:
        raise FormatError(path, None, "the file has no .model, so it is no BLIF")
    return found


def _rows(path: type_of_path) -> Iterator[tuple[int, list[str]]]:
    """The lines that aren't blank, each with what a backslash at its end continues."""
    begin, words = 0, list[str]()
    for number, line in enumerate(lines_of(read_foreign(path)), 1):
        text = content_of(line).strip(" ")
        begin = begin or number
        words += text.removesuffix("\\").split()
        if text.endswith("\\"):
            continue
        if words:
            yield begin, words
        begin, words = 0, []
    if words:
        raise FormatError(path, begin, "the file ends inside a line that a backslash continues")
