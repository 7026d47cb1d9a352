"""Asks a plan's questions of sessions of the program, several beside one another.

Each class is asked for piece after piece of the times, and no more once a piece has shown it. A question that is answered by its
budget is asked again for each half of its times."""
from __future__ import annotations

import os
import time
from collections import deque
from collections.abc import Callable, Iterable, Sequence
from concurrent.futures import FIRST_EXCEPTION, Future, ThreadPoolExecutor, wait
from types import TracebackType
from typing import TypeVar

from ..errors import BacksimError, type_of_path
from ..formats.replies import first_line, fits
from ..formats.script import Line, StatsLine
from ..limits import SCRIPT_LIMIT
from ..session.outcomes import SessionError
from ..session.program import Conversation, Options, interrupt_held, looked_up
from ..values import Answer, At, Budget
from .collapse import FaultClass
from .forecast import Forecast
from .plan import Good, Outcome, Plan
from .portions import Portion, portions_of

T = TypeVar("T")
_MOST_AT_ONCE = 2048
_OUTPUTS_AT_ONCE = 8
# SIGINT and SIGTERM
_INTERRUPTED = (130, 143)


class Incomplete(BacksimError):
    """Not all questions got their reply."""

    status = 1


class Asker:
    """One session at a time over three files. A session that would get more than 16 MiB of questions is followed by another."""

    def __init__(self, files: Sequence[type_of_path], program: type_of_path | None) -> None:
        self._files = (*files, os.devnull)
        self._program = program
        self._conversation: Conversation | None = None
        self._sent = 0
        self._is_stopped = False

    def turn_to(self, files: Sequence[type_of_path]) -> None:
        """Has what is asked from here on be of these files."""
        if (*files, os.devnull) != self._files:
            self.close()
            self._files = (*files, os.devnull)

    def ask(self, lines: Sequence[Line]) -> list[Answer]:
        """The answers to the lines, in order. Incomplete where one is missing, or is one to another line; another error where the
        session ends with a status other than 0."""
        answers: list[Answer] = []
        for start in range(0, len(lines), _MOST_AT_ONCE):
            answers += self._ask(lines[start:start + _MOST_AT_ONCE])
        return answers

    def _ask(self, lines: Sequence[Line]) -> list[Answer]:
        # the reply to `stats` tells that no reply is missing, without waiting for one that does not come
        asked = [*lines, StatsLine()]
        data = "".join(f"{line}\n" for line in asked).encode("latin-1")
        if self._sent + len(data) > SCRIPT_LIMIT:
            self.close()
        if self._is_stopped:
            raise Incomplete("the questions were interrupted")
        if self._conversation is None:
            with interrupt_held():
                self._conversation, self._sent = Conversation(self._files, Options(workers=1), self._program), 0
            if self._is_stopped:
                # the interrupt came while the process was started, and found none
                self._conversation.interrupt()
        self._conversation.send(data)
        self._sent += len(data)
        return [self._answer(line) for line in asked][:-1]

    def _answer(self, line: Line) -> Answer:
        assert self._conversation is not None
        reply = self._conversation.next_reply()
        if reply is None:
            status = self._conversation.finish()
            if status:
                raise self._conversation.error_of(status)
            raise Incomplete(f"the program ended without a reply to `{line}`")
        if not fits(line, reply.answer):
            raise Incomplete(f"a reply is missing: `{first_line(reply)}` is none to `{line}`")
        return reply.answer

    def close(self) -> None:
        """Ends the session."""
        if self._conversation is not None:
            status = self._conversation.finish()
            error = self._conversation.error_of(status) if status else None
            self._conversation = None
            if error:
                raise error

    def interrupt(self) -> None:
        """Ends the session at once, also from another thread; what is asked then fails."""
        self._is_stopped = True
        if self._conversation is not None:
            self._conversation.interrupt()

    def kill(self) -> None:
        """Ends the session at once."""
        if self._conversation is not None:
            self._conversation.kill()
            self._conversation = None


def solve(plan: Plan, own: FaultClass, good: Good, ask: Callable[[Sequence[Line]], list[Answer]], pieces: Iterable[tuple[int, ...]],
          forecast: Forecast, told: Callable[[int], None]) -> Outcome:
    """What comes of one class that is asked for in these pieces of the times, until one shows it. A line that is slow is asked for at
    each time before which it has the value that it keeps. `told` hears for how many more times that is known."""
    outcome = Outcome()
    if own.asked.is_transition:
        every, pieces = list(pieces), _after_held(plan, own, ask)
        forecast.expect("single", len(pieces) - len(every))
    if own.asked.site.is_output:
        plan.judge_output(own, [time for piece in pieces for time in piece], good, outcome)
    else:
        _ask_pieces(plan, own, good, ask, pieces, outcome, forecast, told)
    outcome.is_confirmed = outcome.is_shown or not outcome.unanswered
    return outcome


def _after_held(plan: Plan, own: FaultClass, ask: Callable[[Sequence[Line]], list[Answer]]) -> list[tuple[int, ...]]:
    """The times before which the line has the value at which it is held."""
    values = ask([plan.at_line(own.asked.site.source, time) for time in plan.times[:-1]])
    return [(time,) for time, answer in zip(plan.times[1:], values) if isinstance(answer, At) and answer.value == own.asked.held]


def _ask_pieces(plan: Plan, own: FaultClass, good: Good, ask: Callable[[Sequence[Line]], list[Answer]], pieces: Iterable[tuple[int, ...]],
                outcome: Outcome, forecast: Forecast, told: Callable[[int], None]) -> None:
    left = deque((times, *plan.cost(own, times)) for times in pieces)
    while left and not outcome.is_shown:
        times, kind, weight = left.popleft()
        lines = plan.stuck_lines(own, times, good)
        begun = time.monotonic()
        if len(times) == 1:
            # one output that shows the fault is enough
            for start in range(0, len(lines), _OUTPUTS_AT_ONCE):
                group = lines[start:start + _OUTPUTS_AT_ONCE]
                plan.judge(times, group, ask(group), good, outcome)
                if outcome.is_shown:
                    break
            forecast.took(kind, weight, time.monotonic() - begun)
            told(1)
            continue
        answers = ask(lines)
        if any(isinstance(answer, Budget) for answer in answers):
            half = len(times) // 2
            left.extendleft(((times[half:], kind, weight - weight // 2), (times[:half], kind, weight // 2)))
            forecast.took(kind, 0, time.monotonic() - begun)
        else:
            plan.judge(times, lines, answers, good, outcome)
            forecast.took(kind, weight, time.monotonic() - begun)
            told(len(times))
    for _, kind, weight in left:
        forecast.expect(kind, -weight)


class Crew:
    """A context manager with sessions beside one another over three files, as many as there are jobs."""

    def __init__(self, files: Sequence[type_of_path], jobs: int, program: type_of_path | None = None) -> None:
        program = looked_up(program)
        self._askers = [Asker(files, program) for _ in range(jobs)]

    def __enter__(self) -> Crew:
        return self

    def __exit__(self, kind: type[BaseException] | None, error: BaseException | None, trace: TracebackType | None) -> None:
        try:
            if kind is None:
                for asker in self._askers:
                    asker.close()
        finally:
            for asker in self._askers:
                asker.kill()

    def ask(self, lines: Sequence[Line]) -> list[Answer]:
        """The answers to lines, in order, of one session."""
        return self._askers[0].ask(lines)

    def share(self, parts: Sequence[T], work: Callable[[Asker, T], None]) -> None:
        """Has the sessions do parts of a work, each the next that is left. Nothing further is begun where one has failed, and an
        interrupt ends all at once."""
        left = iter(parts)

        def serve(asker: Asker) -> None:
            # next() of one iterator is whole in each thread
            for part in left:
                work(asker, part)

        with ThreadPoolExecutor(len(self._askers)) as pool:
            running: list[Future[None]] = []
            try:
                # an interrupt may come while threads are started, and one of them already waits for its session
                for asker in self._askers:
                    running.append(pool.submit(serve, asker))
                wait(running, return_when=FIRST_EXCEPTION)
                deque(left, 0)
                for job in running:
                    job.result()
            except BaseException as error:
                deque(left, 0)
                if not isinstance(error, Exception):
                    for asker in self._askers:
                        asker.interrupt()
                # the terminal interrupts the sessions too, and one may be heard of first
                if isinstance(error, SessionError) and error.status in _INTERRUPTED:
                    raise KeyboardInterrupt from None
                raise


def _alike(plan: Plan, classes: Sequence[FaultClass]) -> list[tuple[FaultClass, int]]:
    """The classes that are asked for in the same pieces, one of them each with their number."""
    found: dict[bool, list[FaultClass]] = {}
    for own in classes:
        if not own.asked.site.is_output:
            found.setdefault(plan.has_past(own.asked.site), []).append(own)
    return [(same[0], len(same)) for same in found.values()]


def solve_all(plan: Plan, files: Sequence[type_of_path], jobs: int, take: Callable[[FaultClass, Outcome], None], classes: Sequence[FaultClass],
              forecast: Forecast, program: type_of_path | None = None, told: Callable[[int], None] = lambda count: None) -> Good:
    """Asks for these classes at one time after another, and gives `take` what comes of each. `told` hears of how many more times is known
    what comes of a class, of all times for each class. Gives the values without a fault."""
    for own, count in _alike(plan, classes):
        for times in plan.chunks(own):
            kind, weight = plan.cost(own, times)
            forecast.expect(kind, count * weight)
    with Crew(files, min(jobs, max(1, len(classes))), program) as crew:
        good = Good(plan, crew.ask(plan.good_lines()))

        def work(asker: Asker, task: tuple[Portion, FaultClass]) -> None:
            portion, own = task
            own_plan, own_files = portion.made()
            asker.turn_to(own_files)
            left = len(plan.times)

            def told_of(count: int) -> None:
                nonlocal left
                left -= count
                told(count)

            take(own, solve(own_plan, own, good, asker.ask, own_plan.chunks(own), forecast, told_of))
            told(left)

        crew.share([(portion, own) for portion in portions_of(plan, classes, files) for own in portion.classes], work)
    return good
