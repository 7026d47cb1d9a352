"""A session with the program: questions go through its pipes, and answers come back as batches end.

    with Session("c17.bench", "c17.timing", "c17.stim") as session:
        print(session.at("22", 3).value)
        for start, stop, value in session.wave("22", 0, 11):
            print(start, stop, value)

What is asked together in a batch shares what is evaluated, and is answered in one go (`batch`)."""
from __future__ import annotations

import os
from collections.abc import Callable, Collection, Iterable, Iterator, Sequence
from itertools import islice
from types import TracebackType
from typing import TYPE_CHECKING, TextIO, TypeVar

from ..circuit import buses
from ..collecting import without_collection
from ..errors import FormatError, UsageError, type_of_path
from ..formats.netlist import Netlist, read_netlist, write_netlist
from ..formats.replies import Reply
from ..formats.script import Line, WhyLine
from ..formats.stimulus import Stimulus, read_horizon, read_stimulus, write_stimulus
from ..formats.timing import Timing, read_timing, write_timing
from ..formats.units import Moment, check_units, unit_of_file, units_until
from ..limits import MOST_ASKED_TIME, MOST_BUDGET, MOST_CELLS
from ..values import Answer, Budget, Past, Proof, Unknown
from .batch import Batch
from .checks import whole_number
from .exchange import CHUNK, Asked, Exchange, Questions
from .program import Conversation, Options, interrupt_held
from .questions import SessionQuestions
from .scratch import Scratch

if TYPE_CHECKING:
    from ..circuit.rules import Design
    from ..explanations import Explanation

T = TypeVar("T")
_MOST_TRIES = 8


class _NoProof(Exception):
    """An answer that is no proof, where one was asked for."""

    def __init__(self, answer: Unknown | Past | Budget) -> None:
        self.answer = answer


def _proof_of(answer: Answer) -> Proof:
    """The answer, where it is a proof; else _NoProof."""
    if isinstance(answer, (Unknown, Past, Budget)):
        raise _NoProof(answer)
    assert isinstance(answer, Proof)
    return answer


class Session(SessionQuestions):
    """A session over a netlist, a timing file and a stimulus, each given by its path or as it was read.

    `journal` is the path of the journal, which is created, or emptied where it is a journal; where it is left out, the journal is a file
    without a name in any folder, which goes with the session. `workers` (1 to 64), `shards` (1 to 64) and `cells` (1 to 65,536, of each
    shard) are the program's options, and None leaves one out. `program` is the program's path; `find_program` says what is taken where it
    is left out.

    The program begins at once: where it refuses a file, or can't open one, the constructor raises `Refused` or `Fault`. Line 1 of the
    session's script is a `stats` line, which asks whether all is well. A session is a context manager; whoever does not use it as one
    calls `close`.

    A window from `start` to `stop` holds the times t with `start <= t < stop`; times are 0 to 4,294,967,294, or such as `15ns` where a
    comment of the files states the unit. A budget is the number
    of points that may be evaluated, 0 to 500,000, and 50,000 where it is left out. A name may be that of a bus, `count[7:0]`; the
    answer is then that of the bus, or the first answer of a bit that is no value: `Unknown`, `Past` or `Budget`. UsageError is raised
    for what no line can say. Numbers are those of Python, or whole ones of numpy.

    Threads may share a session: their questions are sent, and answers read, one after another."""

    def __init__(self, netlist: type_of_path | Netlist, timing: type_of_path | Timing, stimulus: type_of_path | Stimulus, *,
                 journal: type_of_path | None = None, workers: int | None = None, shards: int | None = None,
                 cells: int | None = MOST_CELLS, program: type_of_path | None = None) -> None:
        options = Options(workers, shards, cells)
        for given, kind, name in ((netlist, Netlist, "netlist"), (timing, Timing, "timing"), (stimulus, Stimulus, "stimulus")):
            if not isinstance(given, (str, os.PathLike, kind)):
                raise UsageError(f"the {name} is of the type {type(given).__name__}: a path or a {kind.__name__} is wanted")
        self._scratch = Scratch()
        self._exchange: Exchange | None = None
        self._netlist: Netlist | None = netlist if isinstance(netlist, Netlist) else None
        self._design: Design | None = None
        self._given = timing, stimulus
        own = timing.unit if isinstance(timing, Timing) else unit_of_file(timing)
        other = stimulus.unit if isinstance(stimulus, Stimulus) else unit_of_file(stimulus)
        check_units(own, other, "the stimulus" if isinstance(stimulus, Stimulus) else stimulus)
        self.unit = own or other
        self._nearest: dict[str, tuple[str, ...]] = {}
        try:
            self._files = [self._path_of(netlist, write_netlist), self._path_of(timing, write_timing),
                           self._path_of(stimulus, write_stimulus)]
            self.journal = self._scratch.file() if journal is None else os.fspath(journal)
            with interrupt_held():
                self._exchange = Exchange(Conversation([*self._files, self.journal], options, program), self._answer_of)
            self.stats()
        except BaseException:
            self._stop()
            self.close()
            raise

    def __enter__(self) -> Session:
        return self

    def __exit__(self, kind: type[BaseException] | None, error: BaseException | None, trace: TracebackType | None) -> None:
        if kind is not None and not issubclass(kind, Exception):
            self._stop()
        self.close()

    def close(self) -> None:
        """Ends the session; a journal that has a path of its own is whole then. SessionError where it does not end well."""
        try:
            if self._exchange is not None:
                self._exchange.close()
        finally:
            self._scratch.close()

    def _stop(self) -> None:
        if self._exchange is not None:
            self._exchange.stop()

    # the circuit

    @property
    def netlist(self) -> Netlist:
        """The netlist, read when it is first wanted."""
        if self._netlist is None:
            self._netlist = read_netlist(self._files[0])
        return self._netlist

    @property
    def horizon(self) -> int:
        """The last time of the simulation."""
        stimulus = self._given[1]
        return stimulus.horizon if isinstance(stimulus, Stimulus) else read_horizon(stimulus)

    @property
    def design(self) -> Design:
        """The netlist, the timing and the stimulus with the rules of cells, read when they are first wanted."""
        if self._design is None:
            from ..circuit.rules import Design
            timing, stimulus = self._given
            netlist = self.netlist
            self._design = Design(netlist, timing if isinstance(timing, Timing) else read_timing(timing, netlist),
                                  stimulus if isinstance(stimulus, Stimulus) else read_stimulus(stimulus, netlist))
        return self._design

    def names(self, pattern: str = "*") -> tuple[str, ...]:
        """The names of the netlist that are of a pattern, in the order of the signals' numbers: `*` stands for any letters, `?` for
        one, as in `u1.*`."""
        return buses.matching(pattern, self.netlist.names)

    def time(self, time: Moment) -> int:
        """A time in units: a number as it is, a text such as `15ns` by the unit that the files state, which is `unit`."""
        return units_until(time, self.unit, MOST_ASKED_TIME, "the greatest time") if isinstance(time, str) else time

    def bits(self, name: str) -> tuple[str, ...]:
        """The names of the bits that a name stands for: those of a bus, the leftmost first, or the name alone."""
        bits = buses.bits_of(name)
        return bits if bits and name not in self.netlist else (name,)

    # one question

    def explain(self, name: str, time: Moment, budget: int | None = None, *, until: Collection[str] = (), depth: int | None = None,
                has_all: bool = False) -> Explanation | Unknown | Past | Budget:
        """Why the signal, or bus, has its value at the time: root causes, and the shortest chain to each. A budget that is left out is
        raised by itself: from 50,000 to 500,000, and by as much again as long as the memo keeps what was evaluated. With `until` the
        ways back end at these signals, and with `depth` after so many steps; with `has_all` the graph goes on from pins that do not
        matter too."""
        from ..explanations import Explanation
        time = self.time(time)
        if depth is not None:
            depth = whole_number(depth, "depth", 1)
        spent: list[int] = []
        try:
            with without_collection():
                return Explanation(self.design, name, time, self._proofs(self.bits(name), time, budget, spent), until=until, depth=depth,
                                   has_all=has_all, spent=spent)
        except _NoProof as found:
            return found.answer

    def _proofs(self, bits: Sequence[str], time: int, budget: int | None, spent: list[int]) -> Iterator[Proof]:
        """A proof for each bit; _NoProof with the first answer that is none. After the first bit all others are asked at once, with the
        budget that did for that, so that the program goes on while proofs are read; where it does not suffice, one after another again."""
        place = 0
        while place < len(bits):
            yield _proof_of(self.why(bits[place], time, budget) if budget is not None else self._why_raised(bits[place], time, spent))
            place += 1
            if place > 1:
                continue
            own = MOST_BUDGET if budget is None and spent else budget
            for _, answer in self.ask_each([WhyLine(bit, time, own) for bit in bits[1:]]):
                if budget is None and isinstance(answer, Budget):
                    break
                yield _proof_of(answer)
                place += 1

    def _why_raised(self, name: str, time: int, spent: list[int]) -> Proof | Unknown | Past | Budget:
        """The answer with the usual budget, or with the greatest as long as that helps; `spent` has the budgets that did not suffice."""
        while True:
            before = self.stats()
            answer = self.why(name, time, MOST_BUDGET if spent else None)
            if not isinstance(answer, Budget) or len(spent) == _MOST_TRIES:
                return answer
            after = self.stats()
            if spent and (after.evictions > before.evictions or after.fills == before.fills):
                return answer
            spent.append(answer.budget)

    # many questions

    def batch(self) -> Batch:
        """A batch, which takes questions and has answered all when its `with` block ends."""
        return Batch(self)

    def ask(self, lines: Iterable[Line]) -> list[Answer]:
        """The answers to lines of a script (`backsim.formats.script`), in order. `go` lines have none. SessionError where the session
        ends before; its `answered` has the pairs of a line and its answer that had come."""
        asked = self._questions()
        source = iter(lines)
        while len(chunk := list(islice(source, CHUNK))) == CHUNK:
            asked.send(chunk)
        asked.send(chunk, ends=True)
        return asked.answers()

    def ask_each(self, lines: Iterable[Line]) -> Iterator[tuple[Line, Answer]]:
        """Each line with its answer, while the program goes on with those that follow. A caller that has enough may go away."""
        source = iter(lines)
        before: Asked | None = None
        while True:
            chunk = list(islice(source, CHUNK))
            is_last = len(chunk) < CHUNK
            asked = self._open().send(chunk, is_last)
            for each in (before, asked if is_last else None):
                if each is not None:
                    yield from zip(each.lines, self._open().answers(each))
            if is_last:
                return
            before = asked

    def _open(self) -> Exchange:
        if self._exchange is None:
            raise UsageError("the session is closed")
        return self._exchange

    def _questions(self) -> Questions:
        return Questions(self._open())

    def _answer_of(self, reply: Reply) -> Answer:
        answer = reply.answer
        return Unknown(answer.name, self.nearest(answer.name)) if isinstance(answer, Unknown) else answer

    def _path_of(self, given: type_of_path | T, write: Callable[[T, TextIO], None]) -> str:
        """The path that is given, or that of a file to which what is given was written."""
        return os.fspath(given) if isinstance(given, (str, os.PathLike)) else self._scratch.written(write, given)

    def nearest(self, name: str) -> tuple[str, ...]:
        """At most three names of the netlist that are like the name, the most alike first."""
        if name not in self._nearest:
            try:
                self._nearest[name] = buses.nearest(name, self.netlist.names, ascending=self.netlist.ascending)
            except FormatError:
                self._nearest[name] = ()
        return self._nearest[name]
