"""Replies: what a session writes (docs/use/FORMATS.md, Replies), read back, and paired with the lines of a script by what they say."""
from __future__ import annotations

from collections.abc import Iterable, Iterator
from operator import lt
from typing import BinaryIO

from ..errors import FormatError, type_of_path
from ..records import dataclass
from ..values import LOGIC, Answer, At, Budget, Past, Proof, Refusal, Unknown, Wave
from .lines import REPLIES, AtLine, Line, WaveLine, WhyLine
from .proof import CellLines, plain_numbers
from .text import is_name, opened


@dataclass(frozen=True, slots=True)
class Reply:
    """A reply: the line of the file at which it begins, counted from 1, what it says, and its bytes with all line feeds."""

    line: int
    answer: Answer
    text: bytes


class ReplyReader:
    """Reads replies one after another from a source of lines with their line feeds. `path` is what errors name, and `before` counts the
    lines that came before."""

    def __init__(self, lines: Iterable[bytes], path: type_of_path, before: int = 0) -> None:
        self._lines = iter(lines)
        self._path = path
        self.count = before
        self._raw: list[bytes] = []

    def __iter__(self) -> Iterator[Reply]:
        return self

    def __next__(self) -> Reply:
        self._raw = []
        text = self._line()
        if text is None:
            raise StopIteration
        begin = self.count
        words = text.split(" ")
        reader = _READERS.get(words[0])
        answer = reader(self, words) if reader else None
        if answer is None:
            raise self.fault(f"expected a reply, and found `{text[:60]}`")
        return Reply(begin, answer, b"".join(self._raw))

    def fault(self, cause: str) -> FormatError:
        """The error of the line that was read last."""
        return FormatError(self._path, self.count, cause)

    def _line(self) -> str | None:
        line = next(self._lines, b"")
        if not line:
            return None
        self.count += 1
        self._raw.append(line)
        if not line.endswith(b"\n"):
            raise self.fault("the file is cut in this line: it has no line feed")
        return line[:-1].decode("latin-1")

    def inner_lines(self, what: str) -> Iterator[list[str]]:
        """The words of the lines up to `end`."""
        while True:
            text = self._line()
            if text is None:
                self.count += 1
                raise self.fault(f"the file ends before the line `end` of {what}")
            if text == "end":
                return
            yield text.split(" ")


def _unknown(_: ReplyReader, words: list[str]) -> Answer | None:
    return Unknown(words[1]) if len(words) == 2 and is_name(words[1]) else None


def _past(_: ReplyReader, words: list[str]) -> Answer | None:
    times = plain_numbers(words[2:])
    return Past(words[1], *times) if len(words) == 4 and is_name(words[1]) and times is not None else None


def _budget(_: ReplyReader, words: list[str]) -> Answer | None:
    numbers = plain_numbers(words[2:])
    return Budget(words[1], *numbers) if len(words) == 3 and is_name(words[1]) and numbers is not None else None


def _refused(_: ReplyReader, words: list[str]) -> Answer | None:
    if len(words) < 2 or words[1] not in ("netlist", "timing", "stimulus", "script"):
        return None
    if words[2:] == ["too", "long"]:
        return Refusal(words[1])
    numbers = plain_numbers(words[3::2])
    return Refusal(words[1], *numbers) if len(words) == 6 and words[2::2] == ["line", "cause"] and numbers is not None else None


_READERS = {**REPLIES, "unknown": _unknown, "past": _past, "budget": _budget, "refused": _refused}


def read_replies(stream: BinaryIO, path: type_of_path = "replies") -> Iterator[Reply]:
    """The replies of an open file, one after another. FormatError, of the name `path`, at the first line that is of no reply, and
    where the file is cut inside a reply."""
    return ReplyReader(stream, path)


def reply_of(data: bytes, line: int, path: type_of_path = "replies") -> Reply:
    """The one reply that the bytes are, which begins at this line. FormatError where they are none."""
    lines = [text + b"\n" for text in data.split(b"\n")[:-1]]
    return next(ReplyReader(lines, path, line - 1))


class UsualAnswers:
    """Reads replies to `at`, `wave` and `why` lines of one session. Nearly all replies are of these forms, and a session reads them by the
    ten thousand, or proofs of a hundred thousand lines, so here they are compared with what the line leads one to expect."""

    def __init__(self) -> None:
        self._cells = CellLines()

    def answer(self, line: Line, text: bytes) -> Answer | None:
        """The answer, where the bytes are the value, the waveform or the proof that the line asks for; None where they are not, or the line is
        another: then they are read as any reply is."""
        if type(line) is AtLine:
            value = _value_of(line.head, text)
            return None if value is None else At(line.name, line.time, value)
        if type(line) is WaveLine and line.start < line.stop:
            return _wave_of(line, text)
        if type(line) is WhyLine and text.endswith(b"\nend\n"):
            begin = text.index(b"\n") + 1
            value = _value_of(line.head, text[:begin])
            cells = self._cells.cells_of(text[begin:-4]) if value is not None else None
            return None if value is None or cells is None else Proof(line.name, line.time, value, cells)
        return None


def _wave_of(line: WaveLine, text: bytes) -> Wave | None:
    head = f"{line.head}\n".encode()
    if not text.startswith(head):
        return None
    words = text[len(head):-4].split()
    # one that is no value leaves fewer values than times
    values = [value for value in map(_LETTERS.get, words[1::2]) if value is not None]
    try:
        times = tuple(map(int, words[::2]))
    except ValueError:
        return None
    if len(times) == len(values) and times and times[0] == line.start and times[-1] < line.stop and all(map(lt, times, times[1:])):
        return Wave(line.name, line.start, line.stop, tuple(zip(times, values)))
    return None


def _value_of(start: str, text: bytes) -> str | None:
    """The value of a line that says it behind this start."""
    head = f"{start} ".encode()
    return _VALUES.get(text[len(head):]) if text.startswith(head) else None


_LETTERS = {value.encode(): value for value in LOGIC}
_VALUES = {letter + b"\n": value for letter, value in _LETTERS.items()}


def read_replies_of(path: type_of_path) -> Iterator[Reply]:
    """The replies of a file. FormatError also where it can't be read."""
    with opened(path) as stream:
        yield from read_replies(stream, path)


def fits(line: Line, answer: Answer) -> bool:
    """Whether the answer is one to the line: it must name what the line asks, signal, values and times."""
    return line.fits(answer)


def pairs(lines: Iterable[Line], replies: Iterable[Reply], path: type_of_path = "replies") -> Iterator[tuple[Line, Reply]]:
    """Each line that has a reply, with its reply. FormatError, of the name `path`, where a reply is missing, is one to another line,
    or is a refusal, and where there are more replies than lines."""
    left = iter(replies)
    last = 0
    for line in lines:
        if not line.has_reply:
            continue
        reply = next(left, None)
        if reply is None:
            raise FormatError(path, last + 1, f"the file ends where the reply to line {line.number} was to come: `{shown(line)}`")
        last = reply.line + reply.text.count(b"\n") - 1
        if isinstance(reply.answer, Refusal):
            raise FormatError(path, reply.line, f"the session was refused: `{first_line(reply)}`")
        if not line.fits(reply.answer):
            raise FormatError(path, reply.line, f"`{first_line(reply)}` is no reply to line {line.number}, `{shown(line)}`")
        yield line, reply
    extra = next(left, None)
    if extra is not None:
        raise FormatError(path, extra.line, f"`{first_line(extra)}` is a reply to no line of the script")


def first_line(reply: Reply) -> str:
    """The first line of the reply's text."""
    return reply.text.split(b"\n", 1)[0].decode("latin-1")


def shown(line: Line) -> str:
    """The line in at most 60 characters, for a message."""
    text = str(line).strip()
    text = "".join(letter if " " <= letter <= "~" else "?" for letter in text)
    return text if len(text) <= 60 else text[:57] + "..."
