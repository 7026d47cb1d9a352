"""Parts of a script, for sessions beside one another (docs/use/GUIDE.md, A long script on several machines).

A part has as many lines as the whole, up to its own last one; a line that is another part's is blank there, so each question keeps
its number. A part's own lines stand next to one another, since such lines often need the same points."""
from __future__ import annotations

from collections.abc import Iterable, Iterator, Sequence
from typing import TYPE_CHECKING, BinaryIO, NamedTuple

from ..errors import FormatError, type_of_path
from ..formats.text import lines_of, words_of
from ..limits import LINE_LIMIT, SCRIPT_LIMIT

if TYPE_CHECKING:
    from ..formats.script import Line

_MOST_TOLD = 20
_MOST_SHOWN = 60
# with such a word nearly all scripts begin
_USUAL = ("wave", "at", "first", "why", "stuck", "go")


class TextLine(NamedTuple):
    """A line of a script that isn't blank, as far as a part has to know it: its number, counted from 1, its bytes without the line feed,
    and its words. One that is longer than a line may be has no words."""

    number: int
    text: bytes
    words: tuple[str, ...]

    @property
    def has_reply(self) -> bool:
        """Whether a session replies to the line: to all but `go`."""
        return self.words != ("go",)

    @property
    def is_of_session(self) -> bool:
        """Whether the reply to the line depends on the whole session: it is a `stats`, `trim` or `vcd` line."""
        if self.words[:1] not in (("stats",), ("trim",), ("vcd",)):
            return False
        from ..formats.script import BadScriptLine
        return not isinstance(self.parsed(), BadScriptLine)

    def parsed(self) -> Line:
        """The line by its form; few have to be known so."""
        from ..formats.script import parse_line
        line = parse_line(self.text, self.number)
        assert line is not None  # it is not blank
        return line


def read_lines(stream: BinaryIO, path: type_of_path) -> list[TextLine]:
    """The lines of an open script that aren't blank. FormatError where it has more than 16 MiB, or is no script."""
    data = stream.read(SCRIPT_LIMIT + 1)
    if len(data) > SCRIPT_LIMIT:
        raise FormatError(path, None, "the script has more than 16 MiB, which a session refuses")
    lines = list(text_lines(data))
    _check_is_script(lines, path)
    return lines


def _check_is_script(lines: Sequence[TextLine], path: type_of_path) -> None:
    """FormatError for a binary, or a file of another format. A session answers each of its lines by `error`; a script may have such lines
    too, so only a file is refused whose first line and most others begin with no word of a script."""
    if not lines or lines[0].words and lines[0].words[0] in _USUAL:
        return
    # imported here, since few scripts begin otherwise
    from ..formats.lines import FORMS
    if lines[0].words and lines[0].words[0] in FORMS:
        return
    if 2 * sum(bool(line.words) and line.words[0] in FORMS for line in lines) <= len(lines):
        text = ascii(lines[0].text[:_MOST_SHOWN].decode("latin-1"))[1:-1][:_MOST_SHOWN]
        which = f"`{text}` and most other lines are" if len(lines) > 1 else f"`{text}` is"
        raise FormatError(path, lines[0].number, f"this is no script: {which} no question, as `wave NAME FROM TO`")


def text_lines(data: bytes) -> Iterator[TextLine]:
    """The lines of a script's bytes that aren't blank."""
    for number, text in enumerate(lines_of(data), 1):
        is_long = len(text) > LINE_LIMIT
        words = () if is_long else words_of(text)
        if words or is_long:
            yield TextLine(number, text, words)


def told_of_budgets(numbers: Sequence[int]) -> str:
    """What is said of the lines with these numbers, which were answered by their budget."""
    shown = " ".join(map(str, numbers[:_MOST_TOLD])) + (" .." if len(numbers) > _MOST_TOLD else "")
    return (f"lines answered by their budget: {shown}; one session of the whole script may answer such a line by more, from what other "
            "lines evaluated")


def divide(lines: Sequence[TextLine], parts: int) -> list[list[TextLine]]:
    """The lines in so many parts, each with as many lines that have a reply as the others, or one less. `go` lines stay where they
    are. A part may be empty."""
    asked = [place for place, line in enumerate(lines) if line.has_reply]
    ends = [asked[len(asked) * part // parts] if len(asked) * part // parts < len(asked) else len(lines) for part in range(1, parts + 1)]
    return [list(lines[start:end]) for start, end in zip([0, *ends], ends)]


def check_divisible(lines: Iterable[TextLine], path: type_of_path) -> None:
    """FormatError at the first `stats`, `trim` or `vcd` line: its reply depends on the whole session."""
    for line in lines:
        if line.is_of_session:
            raise FormatError(path, line.number, f"the reply to `{line.parsed()}` depends on the whole session: leave the line out, or run "
                              "the script in one session")


def text_of(lines: Iterable[TextLine]) -> Iterator[bytes]:
    """The bytes of a part: each line at its number, and blank lines between."""
    place = 1
    for line in lines:
        yield b"\n" * (line.number - place) + line.text + b"\n"
        place = line.number + 1


def with_every_go(part: Sequence[TextLine], lines: Sequence[TextLine]) -> list[TextLine]:
    """The part with the `go` lines of the whole script, which write nothing."""
    own = {line.number for line in part}
    return [line for line in lines if line.number in own or not line.has_reply]
