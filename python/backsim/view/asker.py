"""Asks the session for what the page wants, in a thread of its own: a little at a time, so that what is wanted next never waits long.

A job is a generator that goes on by one exchange with the program at a time. Jobs take turns; what they find comes through a queue,
as messages (dictionaries that become lines of JSON). A window is asked in pieces, each with a small budget; what a refused piece has
evaluated stays in the memo, so the next one goes on from there."""
from __future__ import annotations

import os
import threading
from collections import deque
from collections.abc import Callable, Generator, Iterable, Iterator, Sequence
from dataclasses import field
from pathlib import Path
from queue import Empty, SimpleQueue
from tempfile import TemporaryDirectory
from typing import Any

from ..circuit.buses import wave_of
from ..circuit.forced import write_forced
from ..errors import BacksimError, UsageError
from ..formats.script import Line, StatsLine, WaveLine, WhyLine
from ..formats.text import opened, words_of
from ..limits import MOST_BUDGET, USUAL_BUDGET
from ..records import dataclass
from ..session.outcomes import SessionError
from ..session.questions import first_of_all, first_of_any
from ..session.session import Session
from ..values import Answer, At, Budget, First, Past, Proof, Stats, Stuck, Unknown, Wave
from .store import Key, Span, Store, shown, span_of

Message = dict[str, Any]
# a signal, and the value 0 or 1 that it is stuck at
Fault = tuple[str, str]
Turns = Generator[None, None, None]

# evaluations of one exchange, about 40 ms; and of a row in one view unless more is asked for, about a second
SLICE = 20_000
ROW_LIMIT = 500_000
SEARCH_LIMIT = 4_000_000
_SEARCHED, _MOST_SEARCHED = 256, 65_536
_LONGEST = 1 << 20
# questions for a bit that are asked at most where the waves of a window would tell too
_MOST_STEPS = 64
# seconds after which it is looked whether who asked still waits
_PATIENCE = 0.2


class Live(Session):
    """A session whose names are looked up elsewhere, so that the whole netlist is not read for one that is unknown."""

    def nearest(self, name: str) -> tuple[str, ...]:
        return ()

    def interrupt(self) -> None:
        """Ends the program at once, from any thread; who waits for an answer gets a SessionError."""
        if self._exchange is not None:
            self._exchange._conversation.interrupt()

    def abandon(self) -> None:
        """Ends the session, whatever it is about."""
        self._stop()
        self.close()


@dataclass(frozen=True, slots=True)
class Row:
    """A signal or bus: its name, its bits, and the fault that is put on a line: the signal with its value, or nothing."""

    name: str
    bits: tuple[str, ...]
    fault: Fault | None = None

    @property
    def key(self) -> Key:
        return (self.name, *(self.fault or ()))


@dataclass(frozen=True, slots=True)
class Wanted:
    """A row of the page with the windows that it wants to show, and how many evaluations these may take."""

    number: int
    row: Row
    windows: tuple[tuple[int, int], ...]
    limit: int


@dataclass(frozen=True, slots=True)
class Sought:
    """What is searched: a value of all bits, or one that any bit has, as x."""

    word: str
    is_any: bool = False

    def is_in(self, value: str) -> bool:
        return self.word in value if self.is_any else value == self.word


@dataclass(slots=True)
class Meter:
    """Counts evaluations up to a limit."""

    limit: int
    spent: int = 0

    @property
    def is_spent(self) -> bool:
        return self.spent >= self.limit


class Job:
    """Something that is asked, and the messages that come of it; the last is None."""

    def __init__(self, turns: Callable[[Job], Turns]) -> None:
        self.messages: SimpleQueue[Message | None] = SimpleQueue()
        self.is_cancelled = False
        self.turns = turns(self)

    def tell(self, **message: Any) -> None:
        self.messages.put(message)

    def next_message(self, is_gone: Callable[[], bool] = bool) -> Message | None:
        """The next message, None at the end. Where nothing comes for a while, and who waits is gone, the job ends."""
        while True:
            try:
                return self.messages.get(timeout=_PATIENCE)
            except Empty:
                self.is_cancelled = self.is_cancelled or is_gone()


@dataclass(slots=True)
class Opening:
    """What a session is opened with."""

    files: tuple[str, str, str]
    options: dict[str, Any] = field(default_factory=dict)

    def open(self, fault: Fault | None = None) -> Live:
        """A session over the files, or over those of the circuit with a fault. Its journal, which would grow as long as the page is open,
        is not kept."""
        if fault is None:
            return Live(*self.files, journal=os.devnull, **self.options)
        with TemporaryDirectory(prefix="backsim") as folder:
            return Live(*write_forced(self.files, *fault, Path(folder)), journal=os.devnull, **self.options)

    def horizon(self) -> int:
        """The horizon that the stimulus states on its first line that isn't blank; the session has read it."""
        with opened(self.files[2]) as file:
            words = next(filter(None, map(words_of, file)))
        return int(words[1])


@dataclass(slots=True)
class Opened:
    """A session that was opened, and how many points it has evaluated."""

    session: Live
    fills: int = 0


class Asker(threading.Thread):
    """The thread that has the session. The constructor opens it, and raises what that raises."""

    def __init__(self, opening: Opening) -> None:
        super().__init__(daemon=True, name="asker")
        self.opening = opening
        self.store = Store()
        self._good = Opened(opening.open())
        self._faulty: tuple[Fault, Opened] | None = None
        self.horizon = opening.horizon()
        self._jobs: deque[Job] = deque()
        self._came = threading.Condition()
        self._is_ended = self._is_asking = False
        self._lengths: dict[Key, int] = {}
        self._failure: str | None = None

    # jobs

    def submit(self, turns: Callable[[Job], Turns]) -> Job:
        """Begins a job: the next turn is its own."""
        job = Job(turns)
        with self._came:
            if self._is_ended:
                job.messages.put(None)
            else:
                self._jobs.appendleft(job)
                self._came.notify()
        return job

    def end(self) -> None:
        """Ends the session and the thread; jobs that go on get no further message."""
        with self._came:
            self._is_ended = True
            self._came.notify()
        for one in filter(None, (self._good, self._faulty and self._faulty[1])):
            one.session.interrupt()
        if self.is_alive():
            self.join()
        self._leave_fault()
        self._good.session.abandon()

    def is_busy(self) -> bool:
        """Whether something is asked."""
        return self._is_asking or bool(self._jobs)

    def run(self) -> None:
        while (job := self._next()) is not None:
            self._is_asking = True
            if not job.is_cancelled and self._turn(job):
                with self._came:
                    self._jobs.append(job)
            else:
                job.messages.put(None)
            self._is_asking = False
        for left in self._jobs:
            left.messages.put(None)

    def _next(self) -> Job | None:
        with self._came:
            while not self._jobs and not self._is_ended:
                self._came.wait()
            return None if self._is_ended else self._jobs.popleft()

    def _turn(self, job: Job) -> bool:
        """Has the job go on by one exchange; whether there is more to do."""
        try:
            next(job.turns)
            return True
        except StopIteration:
            return False
        except SessionError as error:
            self._failure = f"the session has ended: {error}"
            job.tell(error=self._failure)
        except (BacksimError, OSError) as error:
            job.tell(error=str(error))
        return False

    def _ask(self, lines: Iterable[Line], fault: Fault | None = None) -> tuple[list[Answer], int]:
        """The answers to the lines, and how many points were evaluated for them; with a fault those of the circuit that has it."""
        if self._failure is not None:
            raise UsageError(self._failure)
        asked = self._good if fault is None else self._with_fault(fault)
        *answers, stats = asked.session.ask((*lines, StatsLine()))
        assert isinstance(stats, Stats)
        before, asked.fills = asked.fills, stats.fills
        return answers, stats.fills - before

    def _with_fault(self, fault: Fault) -> Opened:
        """The session over the circuit with a fault: one at a time is kept."""
        if self._faulty is None or self._faulty[0] != fault:
            self._leave_fault()
            self._faulty = fault, Opened(self.opening.open(fault))
        return self._faulty[1]

    def _leave_fault(self) -> None:
        faulty, self._faulty = self._faulty, None
        if faulty is not None:
            faulty[1].session.abandon()

    @property
    def fills(self) -> int:
        """How many points were evaluated, with those of the fault that is put on a line now."""
        faulty = self._faulty
        return self._good.fills + (faulty[1].fills if faulty else 0)

    # waves

    def waves(self, wanted: Sequence[Wanted], step: float) -> Callable[[Job], Turns]:
        """A job that tells the waves of rows in their windows: what is known first, then the rows in turn, a piece of each at a time."""

        def turns(job: Job) -> Turns:
            asking: deque[tuple[Wanted, Iterator[Span | None], list[tuple[int, int]], Meter]] = deque()
            for one in wanted:
                known = self.store.of(one.row.key)
                gaps = []
                for window in one.windows:
                    for span in known.within(*window):
                        job.tell(**_message(one.number, span, step))
                    gaps += known.gaps(*window)
                if gaps:
                    meter = Meter(one.limit)
                    asking.append((one, self._pieces(one.row, gaps, meter), gaps, meter))
            yield
            while asking and not job.is_cancelled:
                one, pieces, gaps, meter = asking.popleft()
                try:
                    piece = next(pieces)
                except StopIteration:
                    continue
                except UsageError as error:
                    job.tell(row=one.number, error=str(error))
                    continue
                if piece is not None:
                    job.tell(**_message(one.number, piece, step))
                if meter.is_spent:
                    for start, stop in gaps:
                        job.tell(row=one.number, start=start, stop=stop, spent=meter.spent)
                else:
                    asking.append((one, pieces, gaps, meter))
                yield

        return turns

    def _pieces(self, row: Row, gaps: list[tuple[int, int]], meter: Meter) -> Iterator[Span | None]:
        """Asks for the gaps, from left to right: a span once a piece is answered, None where one was not. What is left to be asked stays
        in `gaps`."""
        length, budget = self._lengths.get(row.key, _LONGEST), SLICE
        while gaps:
            start, stop = gaps[0]
            end = min(stop, start + length)
            span, spent = self._piece(row, start, end, max(SLICE // 20, budget // len(row.bits)))
            meter.spent += spent
            if span is not None:
                self.store.add(row.key, span)
                if end - start == length:
                    length = min(2 * length, _LONGEST)
                gaps[0:1] = [(end, stop)] if end < stop else []
                budget = SLICE
            elif end - start > 1:
                length = max(1, (end - start) // 4)
            else:
                budget = min(4 * budget, MOST_BUDGET)
            self._lengths[row.key] = length
            yield span

    def _piece(self, row: Row, start: int, stop: int, budget: int) -> tuple[Span | None, int]:
        """The span of a window, or None where the budget does not suffice, and the evaluations that were made."""
        waves, spent = self._ask([WaveLine(bit, start, stop, budget) for bit in row.bits], row.fault)
        _check(waves)
        whole = [wave for wave in waves if isinstance(wave, Wave)]
        if len(whole) < len(waves):
            return None, spent
        return span_of(whole[0] if len(whole) == 1 else wave_of(row.name, whole)), spent

    # values

    def values(self, rows: Sequence[tuple[int, Row]], at: int) -> Callable[[Job], Turns]:
        """A job that tells the values of rows at a time, None for one that a budget did not suffice for."""

        def turns(job: Job) -> Turns:
            found: dict[int, str | None] = {}
            for number, row in rows:
                span = self.store.of(row.key).span_at(at)
                if span is None:
                    span, _ = self._piece(row, at, at + 1, MOST_BUDGET // 5)
                    yield
                found[number] = span.value_at(at) if span else None
            job.tell(time=at, values=found)

        return turns

    # searches

    def search(self, row: Row, at: int, is_forward: bool, sought: Sought | None) -> Callable[[Job], Turns]:
        """A job that tells the next time, or the last before, at which the row begins to have what is sought; without that, at which
        its value changes. It tells `time` and `value`, or `time` None where there is none, or `reached` where its evaluations are
        spent."""
        return (lambda job: self._forward(job, row, at, sought)) if is_forward else (lambda job: self._backward(job, row, at, sought))

    def _forward(self, job: Job, row: Row, at: int, sought: Sought | None) -> Turns:
        """Looks at windows of growing length: at the waves, or, where the value before the window is known and not what is sought, by `first`
        as long as that takes few questions."""
        meter, length, before, has_few = Meter(SEARCH_LIMIT), _SEARCHED if sought is None else 1, None, True
        while at < self.horizon + 1:
            stop = min(at + length, self.horizon + 1)
            if sought is not None and has_few and before is not None and not sought.is_in(before):
                at, is_there = yield from self._first(job, row, sought, at, stop, meter)
                has_few = is_there or at == stop
                if is_there:
                    stop = at + 1
            for span in (yield from self._window(job, row, at, stop, meter)):
                for begin, value in zip(span.times, span.values):
                    if before is not None and value != before and (sought is None or sought.is_in(value) and not sought.is_in(before)):
                        job.tell(time=begin, value=value)
                        return
                    before = value
                at = span.stop
            if at < stop:
                job.tell(reached=at, spent=meter.spent)
                return
            length = max(_SEARCHED, min(2 * length, _MOST_SEARCHED))
        job.tell(time=None)

    def _first(self, job: Job, row: Row, sought: Sought, at: int, stop: int, meter: Meter) -> Generator[None, None, tuple[int, bool]]:
        """A time of the window before which the row has not what is sought, and whether it has it then, by questions for one bit after another.
        Less is evaluated so than for waves of the window; but of a row whose bits change often each question leads on a little only,
        and the waves are faster. So it gives up after some."""
        steps = (first_of_any if sought.is_any else first_of_all)(row.bits, sought.word, at, stop, SLICE)
        line, count = next(steps), 0
        while count < _MOST_STEPS and not meter.is_spent:
            (answer,), spent = self._ask((line,), row.fault)
            meter.spent += spent
            yield
            if isinstance(answer, First):
                count += 1
                try:
                    line = steps.send(answer.time)
                except StopIteration as found:
                    return (stop, False) if found.value is None else (found.value, True)
            elif not isinstance(answer, Budget):
                _check([answer])
            elif spent == 0:
                break
        return line.start, False

    def _backward(self, job: Job, row: Row, at: int, sought: Sought | None) -> Turns:
        meter, length, stop = Meter(SEARCH_LIMIT), _SEARCHED, at
        while stop > 0:
            # one time more at the end tells whether the run there began in this piece
            start, last = max(0, stop - length), min(stop + 1, self.horizon + 1)
            spans = yield from self._window(job, row, start, last, meter)
            if sum(span.stop - span.start for span in spans) < last - start:
                job.tell(reached=stop, spent=meter.spent)
                return
            runs = [run for span in spans for run in zip(span.times, span.values)]
            for (_, before), (begin, value) in zip(reversed(runs[:-1]), reversed(runs[1:])):
                if begin < at and value != before and (sought is None or sought.is_in(value) and not sought.is_in(before)):
                    job.tell(time=begin, value=value)
                    return
            if start == 0 and sought is not None and sought.is_in(runs[0][1]):
                job.tell(time=0, value=runs[0][1])
                return
            stop = start
            length = min(2 * length, _MOST_SEARCHED)
        job.tell(time=None)

    def _window(self, job: Job, row: Row, start: int, stop: int, meter: Meter) -> Generator[None, None, list[Span]]:
        """The spans of a window, all of it unless the meter's limit was reached."""
        gaps = self.store.of(row.key).gaps(start, stop)
        pieces = self._pieces(row, gaps, meter)
        while gaps and not meter.is_spent and not job.is_cancelled:
            next(pieces)
            yield
        return list(self.store.of(row.key).within(start, stop))

    # causes

    def proofs(self, names: Sequence[str], at: int) -> Callable[[Job], Turns]:
        """A job that tells a proof of why each signal has its value at a time; a budget that is spent is raised up to its limit."""

        def turns(job: Job) -> Turns:
            proofs: list[Proof] = []
            for name in names:
                budget = USUAL_BUDGET
                while isinstance(answer := self._ask((WhyLine(name, at, budget),))[0][0], Budget):
                    if budget == MOST_BUDGET:
                        raise UsageError(f"{budget:,} evaluations did not suffice to say why {name} has its value at {at:,}")
                    budget = min(4 * budget, MOST_BUDGET)
                    yield
                if not isinstance(answer, Proof):
                    _check([answer])
                    raise UsageError(f"the session does not say why {name} has its value")
                proofs.append(answer)
                yield
            job.tell(proofs=proofs)

        return turns

    def whole(self, rows: Sequence[Row], start: int, stop: int) -> Callable[[Job], Turns]:
        """A job that tells the waves of the bits of rows in a window as answers, for a dump. UsageError where a budget does not suffice."""

        def turns(job: Job) -> Turns:
            answers: list[Answer] = []
            for row in rows:
                for bit in row.bits:
                    one = Row(bit, (bit,), row.fault)
                    spans = yield from self._window(job, one, start, stop, Meter(SEARCH_LIMIT))
                    if sum(span.stop - span.start for span in spans) < stop - start:
                        raise UsageError(f"{SEARCH_LIMIT:,} evaluations did not suffice for {bit} in this window: save a shorter one")
                    for span in spans:
                        answers.append(Stuck(*one.fault, span.wave(bit)) if one.fault else span.wave(bit))
            job.tell(answers=answers)

        return turns

    # loading anew

    def reload(self) -> Callable[[Job], Turns]:
        """A job that opens the files anew, and drops what was known. Where the program refuses one, the session goes on as it was."""

        def turns(job: Job) -> Turns:
            session = self.opening.open()
            self._leave_fault()
            self._good.session.abandon()
            self._good, self._failure = Opened(session), None
            self.horizon = self.opening.horizon()
            self.store = Store()
            self._lengths.clear()
            job.tell(reloaded=True)
            return
            yield

        return turns


def _message(number: int, span: Span, step: float) -> Message:
    """What the page is told of a span."""
    runs = shown(span, step)
    return {"row": number, "start": span.start, "stop": span.stop, "runs": runs, "exact": all(len(run) == 2 for run in runs)}


def _check(answers: Sequence[Answer]) -> None:
    """UsageError where an answer says that there is no such signal or time."""
    for answer in answers:
        if isinstance(answer, Unknown):
            raise UsageError(f"there is no signal {answer.name}")
        if isinstance(answer, Past):
            raise UsageError(f"the time {answer.stop - 1:,} is after the horizon")
        if not isinstance(answer, (At, Wave, Budget)):
            raise UsageError(f"the session answers {type(answer).__name__}")
