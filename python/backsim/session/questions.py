"""What can be asked: of each kind of question the lines of a script that it takes, how its answer is made of theirs, and how a session and a
batch ask it. A bus takes a line for each bit."""
from __future__ import annotations

from abc import ABC, abstractmethod
from collections.abc import Callable, Generator, Iterable, Iterator, Sequence
from functools import lru_cache
from itertools import islice
from typing import Any, Generic, TypeVar

from ..circuit import buses
from ..errors import UsageError, type_of_path
from ..formats.script import AtLine, FirstLine, Line, StatsLine, StuckLine, Trim, VcdLine, WaveLine, WhyLine
from ..formats.text import RULE_OF_NAMES, is_name
from ..formats.units import Moment
from ..limits import LINE_LIMIT, MOST_ASKED_TIME, MOST_BUDGET, MOST_CELLS
from ..values import Answer, At, Budget, Dump, First, Past, Proof, Stats, Stuck, Trimmed, Unknown, Wave
from .checks import whole_number

T = TypeVar("T")
C = TypeVar("C", covariant=True)
# names come again and again
_is_name = lru_cache(1 << 16)(is_name)
# so many bytes of two names and the other words of a line are no more than a line may have
_MOST_NAME = (LINE_LIMIT - 64) // 2
# questions for the bits of a bus, one after another, that cost less than the waves of all bits in a window of some length
_MOST_STEPS = 256


class Question(Generic[C]):
    """Lines that are asked, and what makes the answer of their answers, where each has a value."""

    __slots__ = ("combine", "lines")

    def __init__(self, lines: tuple[Line, ...], combine: Callable[[Sequence[Any]], C]) -> None:
        self.lines, self.combine = lines, combine

    def answer(self, answers: Sequence[Answer]) -> C | Unknown | Past | Budget:
        """The answer; the first of the lines' that is no value, where there is one."""
        for answer in answers:
            if isinstance(answer, (Unknown, Past, Budget)):
                return answer
        return self.combine(answers)


class Pending(Generic[T]):
    """A question of a batch, and its answer once the batch was asked."""

    __slots__ = ("_answers", "_question")

    def __init__(self, question: Question[T]) -> None:
        self._question = question
        self._answers: list[T | Unknown | Past | Budget] = []  # the answer alone, once it is there

    def result(self) -> T | Unknown | Past | Budget:
        """The answer. UsageError before the batch was asked."""
        if not self._answers:
            raise UsageError("the batch was not asked yet: its answers are there once its `with` block has ended")
        return self._answers[0]

    def _settle(self, answers: Iterator[Answer]) -> None:
        """Takes the answers to its lines, which come next."""
        self._answers.append(self._question.answer(list(islice(answers, len(self._question.lines)))))


class Names(ABC):
    """What questions have to know of the circuit."""

    @abstractmethod
    def bits(self, name: str) -> tuple[str, ...]:
        """The names of the bits that a name stands for, the leftmost first."""

    @abstractmethod
    def time(self, time: Moment) -> int:
        """The time in units."""


def _only(answers: Sequence[Any]) -> Any:
    return answers[0]


def wave(known: Names, name: str, start: Moment, stop: Moment, budget: int | None) -> Question[Wave]:
    """Asks for the waveform in a window."""
    bits, (begin, end), budget = _checked(known, name, (start, stop), budget)
    if bits == (name,):
        return Question((WaveLine(name, begin, end, budget),), _only)
    lines = tuple([WaveLine(bit, begin, end, budget) for bit in bits])
    return Question(lines, lambda waves: buses.wave_of(name, waves))


def at(known: Names, name: str, time: Moment, budget: int | None) -> Question[At]:
    """Asks for the value at a time."""
    bits, (when,), budget = _checked(known, name, (time,), budget)
    if bits == (name,):
        return Question((AtLine(name, when, budget),), _only)
    lines = tuple([AtLine(bit, when, budget) for bit in bits])
    return Question(lines, lambda answers: At(name, when, "".join(each.value for each in answers)))


def word_of(bits: Sequence[object], name: str, value: str | int) -> str:
    """The value of a signal or bus, a letter for each of its bits. UsageError where it is none."""
    word = str(value).lower()
    if len(word) != len(bits) or word.strip("01xz"):
        raise UsageError(f"{value!r} is no value of {name}: {len(bits)} of the letters 0, 1, x and z are wanted")
    return word


def first_of_all(bits: Sequence[str], word: str, start: int, stop: int, budget: int | None) -> Generator[FirstLine, int | None, int | None]:
    """Finds the first time of a window at which each bit has its value, by questions for one bit after another, each from the time on to
    which the one before it led. So a bit is evaluated up to its answer alone, and not where another has led past. Is sent the time that
    answers a question, or None; gives the time, or None."""
    agreed = place = 0
    while agreed < len(bits):
        time = yield FirstLine(bits[place], word[place], start, stop, budget)
        if time is None:
            return None
        agreed = agreed + 1 if time == start else 1
        start, place = time, (place + 1) % len(bits)
    return start


def first_of_any(bits: Sequence[str], value: str, start: int, stop: int, budget: int | None) -> Generator[FirstLine, int | None, int | None]:
    """Finds the first time of a window at which a bit at least has the value, as `first_of_all`; what comes after an answer is not asked."""
    found = None
    for bit in bits:
        time = yield FirstLine(bit, value, start, stop, budget)
        if time is not None:
            found = stop = time
        if time == start:
            break
    return found


def first(known: Names, name: str, value: str | int, start: Moment, stop: Moment, budget: int | None) -> Question[First]:
    """Asks for the first time at which the name has the value; of a bus by the waves of its bits."""
    bits, (begin, end), budget = _checked(known, name, (start, stop), budget)
    word = word_of(bits, name, value)
    if bits == (name,):
        return Question((FirstLine(name, word, begin, end, budget),), _only)

    def combine(waves: Sequence[Any]) -> First:
        times = (time for time, found in buses.wave_of(name, waves).changes if found == word)
        return First(name, word, begin, end, next(times, None))

    return Question(tuple(WaveLine(bit, begin, end, budget) for bit in bits), combine)


def why(known: Names, name: str, time: Moment, budget: int | None) -> Question[Proof]:
    """Asks why a signal has the value that it has at a time."""
    bits, (when,), budget = _checked(known, name, (time,), budget)
    if bits != (name,):
        raise UsageError(f"{name} is a bus: ask why of one of its bits")
    return Question((WhyLine(name, when, budget),), _only)


def stuck(known: Names, site: str, value: str | int, name: str, start: Moment, stop: Moment, budget: int | None) -> Question[Stuck]:
    """Asks for the waveform of the name where the signal `site` has the value at all times."""
    bits, (begin, end), budget = _checked(known, name, (start, stop), budget)
    held = str(value)
    _check_name(site)
    if held not in ("0", "1"):
        raise UsageError(f"a signal is stuck at 0 or 1, and not {site!r} at {value!r}")
    lines = tuple(StuckLine(site, held, bit, begin, end, budget) for bit in bits)
    if bits == (name,):
        return Question(lines, _only)
    return Question(lines, lambda answers: Stuck(site, held, buses.wave_of(name, [each.wave for each in answers])))


def _checked(known: Names, name: str, times: tuple[Moment, ...], budget: int | None) -> tuple[tuple[str, ...], list[int], int | None]:
    """The bits of the name, the times and the budget, where a line can ask for it at these times with this budget; else UsageError."""
    units = [known.time(time) for time in times]
    _check_name(name)
    whole = [whole_number(time, "time", 0, MOST_ASKED_TIME) for time in units]
    if budget is not None:
        budget = whole_number(budget, "budget", 0, MOST_BUDGET)
    return known.bits(name) if name[-1] == "]" else (name,), whole, budget


def _check_name(name: object) -> None:
    """UsageError where it is no name, or one for which a line has no room."""
    if not isinstance(name, str) or not _is_name(name):
        raise UsageError(f"{name!r} is no name: {RULE_OF_NAMES}")
    if len(name) > _MOST_NAME:
        raise UsageError(f"`{name[:40]}..` has {len(name):,} letters, more than the {_MOST_NAME:,} that a line has room for")


class SessionQuestions(Names):
    """What a session is asked, one question at a time."""

    @abstractmethod
    def ask(self, lines: Iterable[Line]) -> list[Answer]:
        """The answers to the lines, in order."""

    def _answer(self, question: Question[T]) -> T | Unknown | Past | Budget:
        return question.answer(self.ask(question.lines))

    def _one(self, line: Line, kind: type[T]) -> T:
        answer, = self.ask((line,))
        assert isinstance(answer, kind)
        return answer

    def wave(self, name: str, start: Moment, stop: Moment, budget: int | None = None) -> Wave | Unknown | Past | Budget:
        """The waveform in a window; of a bus the values are words, the leftmost bit first."""
        return self._answer(wave(self, name, start, stop, budget))

    def at(self, name: str, time: Moment, budget: int | None = None) -> At | Unknown | Past | Budget:
        """The value at a time; of a bus it is a word, the leftmost bit first."""
        return self._answer(at(self, name, time, budget))

    def first(self, name: str, value: str | int, start: Moment, stop: Moment,
              budget: int | None = None) -> First | Unknown | Past | Budget:
        """The first time of a window at which the signal has the value, 0, 1, x or z; `First.time` is None where there is none. Of a
        bus the value is a word. Its bits are asked one after another, each from where the one before it has its value, within the budget;
        where many such questions have not led to it, the waves of all bits are asked in what is left of the window."""
        start, stop = self.time(start), self.time(stop)
        question = first(self, name, value, start, stop, budget)
        if len(question.lines) == 1:
            return self._answer(question)
        word, begin = word_of(question.lines, name, value), start
        steps = first_of_all(self.bits(name), word, start, stop, budget)
        line = next(steps)
        for _ in range(_MOST_STEPS):
            answer, = self.ask((line,))
            if not isinstance(answer, First):
                assert isinstance(answer, (Unknown, Past, Budget))
                return answer
            begin = begin if answer.time is None else answer.time
            try:
                line = steps.send(answer.time)
            except StopIteration as found:
                return First(name, word, start, stop, found.value)
        left = self._answer(first(self, name, value, begin, stop, budget))
        return First(name, word, start, stop, left.time) if isinstance(left, First) else left

    def why(self, name: str, time: Moment, budget: int | None = None) -> Proof | Unknown | Past | Budget:
        """Why the signal has the value that it has at the time. UsageError of a bus."""
        return self._answer(why(self, name, time, budget))

    def stuck(self, site: str, value: str | int, name: str, start: Moment, stop: Moment,
              budget: int | None = None) -> Stuck | Unknown | Past | Budget:
        """The waveform of `name` where the signal `site` has the value 0 or 1 at all times. `name` may be a bus."""
        return self._answer(stuck(self, site, value, name, start, stop, budget))

    def trim(self, cells: int) -> Trimmed:
        """Evicts the least recent cells of each shard until at most so many, 0 to 65,536, are left."""
        return self._one(Trim(whole_number(cells, "number of cells", 0, MOST_CELLS)), Trimmed)

    def stats(self) -> Stats:
        """The counts of the session so far."""
        return self._one(StatsLine(), Stats)

    def vcd(self, file: type_of_path) -> Dump:
        """Writes the waves of the last batch to a file, as a waveform dump. At most three are written in a session; the name may have
        no blank and none of `(`, `)`, `,`, `=` and `#`."""
        name = str(file)
        if not is_name(name) or len(f"vcd {name}") > LINE_LIMIT:
            raise UsageError(f"{name}: no line of a script can name this file")
        return self._one(VcdLine(name), Dump)


class BatchQuestions(ABC):
    """What a batch takes: the questions of a session that give a value."""

    _session: Names

    @abstractmethod
    def _add(self, question: Question[T]) -> Pending[T]:
        """Takes the question."""

    def wave(self, name: str, start: Moment, stop: Moment, budget: int | None = None) -> Pending[Wave]:
        """As `Session.wave`."""
        return self._add(wave(self._session, name, start, stop, budget))

    def at(self, name: str, time: Moment, budget: int | None = None) -> Pending[At]:
        """As `Session.at`."""
        return self._add(at(self._session, name, time, budget))

    def first(self, name: str, value: str | int, start: Moment, stop: Moment, budget: int | None = None) -> Pending[First]:
        """As `Session.first`; of a bus by the waves of its bits in the whole window, since a batch asks without looking at answers."""
        return self._add(first(self._session, name, value, start, stop, budget))

    def why(self, name: str, time: Moment, budget: int | None = None) -> Pending[Proof]:
        """As `Session.why`."""
        return self._add(why(self._session, name, time, budget))

    def stuck(self, site: str, value: str | int, name: str, start: Moment, stop: Moment, budget: int | None = None) -> Pending[Stuck]:
        """As `Session.stuck`."""
        return self._add(stuck(self._session, site, value, name, start, stop, budget))
