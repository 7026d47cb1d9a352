"""Runs a script in one or more processes, and gives its replies in the order of its lines."""
from __future__ import annotations

import re
import threading
from collections.abc import Generator, Sequence
from queue import SimpleQueue
from typing import TYPE_CHECKING, NamedTuple

from ..errors import type_of_path
from ..formats.text import NAME
from ..session.outcomes import may_pass
from ..session.program import Conversation, Options, interrupt_held, looked_up
from .parts import TextLine, divide, text_of

if TYPE_CHECKING:
    from ..formats.replies import Reply

RESTARTS = 2
# lines whose replies are looked for at a time
_AT_ONCE = 1024
# `at` and `wave` lines with one blank between words, and numbers below every limit; nearly all lines of a long script are such, and
# `head` is how their replies begin
_USUAL = re.compile(rf"(?P<head>(?P<at>at) {NAME.pattern} [0-9]{{1,9}}|wave {NAME.pattern} [0-9]{{1,9}} [0-9]{{1,9}})(?: [0-9]{{1,5}})?"
                    .encode())
_VALUES = (b" 0\n", b" 1\n", b" x\n", b" z\n")
_COUNTS = re.compile(rb"stats batches ([0-9]+) fills ([0-9]+) evictions ([0-9]+) cells ([0-9]+)\n")
_STATS = TextLine(0, b"stats", ("stats",))


class Files(NamedTuple):
    """The names of the three files and the journal of a session, in the order of the program's words."""

    netlist: type_of_path
    timing: type_of_path
    stimulus: type_of_path
    journal: type_of_path

    def of_part(self, number: int, parts: int) -> Files:
        """The files of a part: its journal has the part's number behind its name where there are several."""
        return self if parts == 1 else self._replace(journal=f"{self.journal}.{number}")


class Piece(NamedTuple):
    """The replies to lines that follow one another: their bytes, their count, and which of the lines were answered by their budget."""

    text: bytes
    size: int
    spent: tuple[int, ...]


class Counts(NamedTuple):
    """The counts of a session."""

    batches: int
    fills: int
    evictions: int
    cells: int


class _Part(threading.Thread):
    """Runs the lines of a part, again from the first unanswered line on where a fault ends the process, and puts the replies into a
    queue as they come; last comes None, or the error that ended it. `begin` comes before `start`."""

    def __init__(self, files: Files, options: Options, program: type_of_path | None, lines: Sequence[TextLine]) -> None:
        super().__init__(daemon=True)
        self.files, self.options, self.program = files, options, program
        self.lines = lines
        self.pieces: SimpleQueue[Piece | BaseException | None] = SimpleQueue()
        self.restarts = 0
        self.stats: list[Counts] = []
        self._asked = [place for place, line in enumerate(lines) if line.has_reply]
        self._answered = 0
        self._conversation: Conversation | None = None
        self._is_stopped = False

    def begin(self) -> None:
        """Starts a process with the lines from the first unanswered one on."""
        with interrupt_held():
            self._conversation = Conversation(self.files, self.options, self.program)
        if self._is_stopped:
            self._conversation.interrupt()
        left = self.lines[self._asked[self._answered]:] if self._answered < len(self._asked) else []
        self._conversation.send(b"".join(text_of(left)) + b"stats\n")
        self._conversation.end_input()

    def run(self) -> None:
        try:
            while not self._is_served():
                self.restarts += 1
                self.begin()
            self.pieces.put(None)
        except BaseException as error:
            self.pieces.put(error)

    def _is_served(self) -> bool:
        """Reads the replies that are left; whether the process served all, and was not ended by a fault after which it may be tried
        again."""
        assert self._conversation is not None
        counts: list[Counts | None] = []
        if self._is_answered():
            counts = self._conversation.replies_to([_STATS], lambda _, text: _counts(text), lambda reply: _counts(reply.text))
            self.stats += filter(None, counts)
        status = self._conversation.finish()
        if counts and status == 0 or self._is_stopped:
            return True
        # the reply to a line of the session depends on what it has done before
        if may_pass(status) and self.restarts < RESTARTS and not any(line.is_of_session for line in self.lines):
            return False
        raise self._conversation.error_of(status)

    def _is_answered(self) -> bool:
        """Whether all replies came."""
        assert self._conversation is not None
        while self._answered < len(self._asked):
            lines = [self.lines[place] for place in self._asked[self._answered:self._answered + _AT_ONCE]]
            came = self._conversation.replies_to(lines, _usual, _told)
            if not came:
                return False
            spent = tuple(line.number for line, (_, is_spent) in zip(lines, came) if is_spent)
            self.pieces.put(Piece(b"".join(text for text, _ in came), len(came), spent))
            self._answered += len(came)
        return True

    def end(self) -> None:
        """Ends the process at once where it goes on, and so the thread."""
        self._is_stopped = True
        if self._conversation is None:
            return
        if self.is_alive():
            self._conversation.interrupt()
            self.join()
        else:
            self._conversation.kill()


def _usual(line: TextLine, text: bytes) -> tuple[bytes, bool] | None:
    """The reply, where it is the value that an `at` line asks for, or begins as the waveform that a `wave` line asks for; and that it is
    none of a budget."""
    asked = _USUAL.fullmatch(line.text)
    if asked is None or not text.startswith(asked["head"]):
        return None
    rest = text[len(asked["head"]):]
    return (text, False) if (rest in _VALUES if asked["at"] else rest.startswith(b"\n")) else None


def _told(reply: Reply) -> tuple[bytes, bool]:
    return reply.text, reply.text.startswith(b"budget ")


def _counts(text: bytes) -> Counts | None:
    found = _COUNTS.fullmatch(text)
    return None if found is None else Counts(*map(int, found.groups()))


class Run:
    """The run of a script: `pieces` gives its replies in the order of its lines, while the processes go on.

    `lines` are those of a script as it was read. With several jobs they are divided into as many parts, each for a process of its own;
    `stats`, `trim` and `vcd` lines must not be among them then (`parts.check_divisible`). A part that a fault ended is run again from its
    first unanswered line on, at most twice, and its journal is made anew then. Refused, Fault or SessionError is raised in the place of
    the first reply that is not there."""

    def __init__(self, files: Files, lines: Sequence[TextLine], options: Options = Options(), jobs: int = 1,
                 program: type_of_path | None = None) -> None:
        program = looked_up(program) if jobs > 1 else program
        parts = [part for part in divide(lines, jobs) if any(line.has_reply for line in part)] or [list(lines)]
        self._parts = [_Part(files.of_part(number, len(parts)), options, program, part) for number, part in enumerate(parts, 1)]

    @property
    def journals(self) -> list[type_of_path]:
        """The journals' names, a part's each."""
        return [part.files.journal for part in self._parts]

    @property
    def restarts(self) -> int:
        """How often a part was run again."""
        return sum(part.restarts for part in self._parts)

    def stats(self) -> Counts:
        """The counts of all processes that came to their end, added up."""
        counts = [stats for part in self._parts for stats in part.stats]
        return Counts(*map(sum, zip(*counts))) if counts else Counts(0, 0, 0, 0)

    def pieces(self) -> Generator[Piece, None, None]:
        """The replies in the order of the lines, as they come."""
        try:
            for part in self._parts:
                part.begin()
            for part in self._parts:
                part.start()
            for part in self._parts:
                while (found := part.pieces.get()) is not None:
                    if isinstance(found, BaseException):
                        raise found
                    yield found
        finally:
            for part in self._parts:
                part.end()
