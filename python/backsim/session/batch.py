"""Many questions at once."""
from __future__ import annotations

from types import TracebackType
from typing import TYPE_CHECKING, Any, TypeVar

from ..formats.script import Line
from .exchange import CHUNK, Questions
from .questions import BatchQuestions, Pending, Question

if TYPE_CHECKING:
    from .session import Session

T = TypeVar("T")


class Batch(BatchQuestions):
    """Takes questions, sends them while more are taken, and has answered all when its `with` block ends, or after `ask`. Each question
    is that of the session's method of the same name. The program divides what is asked into batches of at most 64 lines; those share
    what they evaluate.

        with session.batch() as batch:
            waves = [batch.wave(name, 0, 31) for name in session.names("G1?")]
        print([wave.result() for wave in waves])

    SessionError where the session ends before; its `answered` has the pairs of a line and its answer that had come."""

    def __init__(self, session: Session) -> None:
        self._session: Session = session
        self._pending: list[Pending[Any]] = []
        self._lines: list[Line] = []
        self._asked: Questions | None = None
        self.results: list[Any] = []

    def __enter__(self) -> Batch:
        return self

    def __exit__(self, kind: type[BaseException] | None, error: BaseException | None, trace: TracebackType | None) -> None:
        if kind is None:
            self.ask()

    def ask(self) -> list[Any]:
        """Asks what was not asked yet, and gives the answers in the order of the questions; `results` has them too."""
        asked = self._send(True)
        pending, self._pending, self._asked = self._pending, [], None
        answers = iter(asked.answers())
        for one in pending:
            one._settle(answers)
        self.results += [one.result() for one in pending]
        return self.results

    def _add(self, question: Question[T]) -> Pending[T]:
        pending = Pending(question)
        self._pending.append(pending)
        self._lines += question.lines
        if len(self._lines) >= CHUNK:
            self._send(False)
        return pending

    def _send(self, ends: bool) -> Questions:
        """Sends the lines that were added."""
        if self._asked is None:
            self._asked = self._session._questions()
        lines, self._lines = self._lines, []
        self._asked.send(lines, ends)
        return self._asked
