"""What answers the lines of a prompt: a session, what was asked last, and the names and times of words."""
from __future__ import annotations

from collections.abc import Callable, Iterator
from functools import cached_property
from typing import Any, TypeVar

from ..circuit.buses import bits_of, full_name
from ..command_line.no_value import no_value_of
from ..errors import UsageError
from ..explanations.names import compact
from ..formats.text import is_name
from ..formats.units import Unit
from ..limits import MOST_BUDGET
from ..session.session import Session
from ..values import Budget, Past, Unknown
from .lines import FORMS, asked_by, time_in

T = TypeVar("T")
MOST_SIGNALS = 1000
_WILD = set("*?")


class Answers:
    """Answers lines by a session. The name and time of what was asked `last` are kept, so that `why` alone goes on from them. `files` are the
    names of the netlist and the stimulus."""

    def __init__(self, session: Session, netlist: str, stimulus: str, unit: Unit | None = None) -> None:
        self.session = session
        self.unit = unit
        self.files = netlist, stimulus
        self.last: tuple[str, int] | None = None

    def lines(self, line: str) -> Iterator[str]:
        """The lines of the answer; none of a blank line. BacksimError where there is no answer. EOFError where the line ends the prompt."""
        asked = asked_by(line)
        if asked is not None:
            yield from FORMS[asked.verb].tell(self, *asked.words)

    @cached_property
    def _known(self) -> frozenset[str]:
        return frozenset(self.session.netlist.names)

    @property
    def _horizon(self) -> int:
        return self.session.horizon

    def time(self, word: str, beyond: int = 0) -> int:
        """The time that a word is. UsageError where it is none."""
        return time_in(word, self._horizon, self.unit, beyond)

    def named(self, name: str) -> list[str]:
        """The signals and buses that a name stands for; a pattern without `$` stands for none that a converter added, and for bits as
        buses. UsageError where a pattern is of none, or of too many."""
        is_wild = bool(set(name) & _WILD)
        if not is_wild and self._is_signal(name) or name in self.session.netlist:
            return [name]
        if not is_wild:
            return [full_name(name, self._known, self.session.netlist.ascending)]
        found = compact([own for own in self.session.names(name) if "$" in name or "$" not in own], True, self.session.netlist.ascending)
        if not found:
            raise UsageError(f"no signal is of the pattern {name}")
        if len(found) > MOST_SIGNALS:
            raise UsageError(f"{len(found):,} signals are of the pattern {name}, more than {MOST_SIGNALS:,}")
        return found

    def _is_signal(self, name: str) -> bool:
        """Whether the program has a signal of this name; so the netlist, which may be long, is read for other names alone."""
        return is_name(name) and not bits_of(name) and not isinstance(self.session.at(name, 0, 0), Unknown)

    def only(self, name: str) -> str:
        """The one signal or bus that a name stands for. UsageError where it stands for several."""
        names = self.named(name)
        if len(names) > 1:
            raise UsageError(f"{name} stands for {len(names)} signals, and one is wanted")
        return names[0]

    def told(self, answer: T | Unknown | Past | Budget, what: str) -> T:
        """The answer, where it has a value; else an error says why it has none."""
        if isinstance(answer, (Unknown, Past, Budget)):
            raise no_value_of(answer, *self.files, what, f", {self._horizon:,}")
        return answer

    def within(self, ask: Callable[[int | None], T | Unknown | Past | Budget], what: str) -> T:
        """The answer with the usual budget, or else with the greatest."""
        answer = ask(None)
        return self.told(ask(MOST_BUDGET) if isinstance(answer, Budget) else answer, what)

    def each(self, names: list[str], ask: Callable[[Any, str, int | None], Any], what: str) -> Iterator[tuple[str, Any]]:
        """Each name with its answer; they are asked together."""
        with self.session.batch() as batch:
            pending = [ask(batch, name, None) for name in names]
        for name, one in zip(names, pending):
            answer = one.result()
            yield name, self.told(ask(self.session, name, MOST_BUDGET) if isinstance(answer, Budget) else answer, f"{name} {what}")

    def window(self, times: tuple[str, ...]) -> tuple[int, int]:
        """The first time of the window that two words say, and the one after its last; without words all times."""
        if not times:
            return 0, self._horizon + 1
        start, stop = self.time(times[0]), self.time(times[1], 1)
        return start, stop + (times[1] == "end")
