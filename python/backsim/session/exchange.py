"""What a session sends, and the answers that come back to it in order."""
from __future__ import annotations

import threading
from collections import deque
from collections.abc import Callable, Iterable, Iterator
from dataclasses import field, replace

from ..errors import UsageError
from ..formats.replies import Reply, UsualAnswers
from ..formats.script import BadScriptLine, Go, Line
from ..records import dataclass
from ..values import Answer
from .outcomes import SessionError
from .program import Conversation

# lines that are sent at a time; those of a later time complete the program's batches of the one before, which have at most 64
CHUNK = 256


@dataclass(slots=True, eq=False)
class Asked:
    """Lines that were sent and have a reply, and the answers that were read so far."""

    lines: list[Line]
    answers: list[Answer] = field(default_factory=list)


class Exchange:
    """Sends lines and reads answers. Whatever is read, the answers to what was sent before it are read first and kept; so answers may
    be left for later, or for ever. Of several threads one sends or reads at a time."""

    def __init__(self, conversation: Conversation, answer_of: Callable[[Reply], Answer]) -> None:
        """`answer_of` gives the answer of a reply that is not a plain value or waveform."""
        self._conversation = conversation
        self._answer_of = answer_of
        self._usual = UsualAnswers()
        self._ended: SessionError | UsageError | None = None
        self._left: deque[Asked] = deque()
        self._count = 0
        self._is_open = False
        # a thread that is interrupted while it reads ends the exchange, so it may hold the lock already
        self._lock = threading.RLock()

    def send(self, lines: Iterable[Line], ends: bool) -> Asked:
        """Sends the lines; where `ends` is true, with a `go` where they leave a batch open. Without it their last answers may only be
        read once more was sent. SessionError, or UsageError, where the session has ended."""
        given = list(lines)
        with self._lock:
            if self._ended is not None:
                raise self._ended
            sent = [self._numbered(line, number) if isinstance(line, BadScriptLine) else line
                    for number, line in enumerate(given, self._count + 1)]
            asked = Asked([line for line in sent if line.has_reply])
            texts = list(map(str, sent))
            if sent:
                self._count += len(sent)
                self._is_open = sent[-1].is_item
            if ends and self._is_open:
                self._count += 1
                self._is_open = False
                texts.append(str(Go()))
            texts.append("")
            self._conversation.send("\n".join(texts).encode("latin-1"))
            if asked.lines:
                self._left.append(asked)
            return asked

    @staticmethod
    def _numbered(line: BadScriptLine, number: int) -> BadScriptLine:
        """The line as one line of this number in what is sent."""
        return replace(line, number=number, text=line.text.replace("\n", " "))

    def answers(self, asked: Asked) -> Iterator[Answer]:
        """The answers to what was sent, one after another. SessionError where the session ends before."""
        place = 0
        while place < len(asked.lines):
            with self._lock:
                while len(asked.answers) <= place:
                    self._read()
            came = asked.answers[place:]
            place += len(came)
            yield from came

    def take(self) -> None:
        """Reads the answers that have come, without waiting for others where the program takes what is sent to it."""
        with self._lock:
            while self._left and self._ended is None:
                try:
                    if not self._read(waits=self._conversation.is_behind):
                        return
                except SessionError:
                    # it is raised to who waits for an answer, or sends more
                    return

    def _read(self, waits: bool = True) -> bool:
        """Reads the next answers, and keeps them where they belong; whether some came."""
        if self._ended is not None:
            raise self._ended
        asked = self._left[0]
        left = asked.lines[len(asked.answers):]
        try:
            came: list[Answer] = self._conversation.replies_to(left, self._usual.answer, self._answer_of, waits)
            if not came and waits:
                raise self._conversation.error_of(self._conversation.finish())
        except SessionError as error:
            self._ended = error
            raise
        except KeyboardInterrupt:
            self.stop()
            raise
        asked.answers += came
        if len(came) == len(left):
            self._left.popleft()
        return bool(came)

    def close(self) -> None:
        """Ends the session. SessionError where it does not end well, and did not end before."""
        with self._lock:
            if self._ended is None:
                self._ended = UsageError("the session is closed")
                status = self._conversation.finish()
                if status:
                    raise self._conversation.error_of(status)

    def stop(self) -> None:
        """Ends the program at once."""
        if self._ended is None:
            self._ended = UsageError("the session was ended")
            self._conversation.kill()


class Questions:
    """Lines that are sent while others are made, and their answers. SessionError where the session ends before all are there; its
    `answered` has the pairs of a line and its answer that had come."""

    def __init__(self, exchange: Exchange) -> None:
        self._exchange = exchange
        self._sent: list[Asked] = []

    def send(self, lines: Iterable[Line], ends: bool = False) -> None:
        """Sends the lines, and reads the answers that have come. Where `ends` is true all answers can be had then."""
        try:
            self._sent.append(self._exchange.send(lines, ends))
        except SessionError as error:
            self._tell(error)
            raise
        self._exchange.take()

    def answers(self) -> list[Answer]:
        """The answers to all that was sent, in order."""
        try:
            return [answer for asked in self._sent for answer in self._exchange.answers(asked)]
        except SessionError as error:
            self._tell(error)
            raise

    def _tell(self, error: SessionError) -> None:
        error.answered = tuple(pair for asked in self._sent for pair in zip(asked.lines, asked.answers))
