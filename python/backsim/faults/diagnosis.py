"""Which faults explain best what a tester saw: simulation gives the failures of each, and the program is asked for those of the best.

The counts have the field's names: a failure that the tester saw and simulation gives (tester fail, simulation fail: TFSF), one that only
the tester saw (TFSP), and one that only simulation gives (TPSF)."""
from __future__ import annotations

from collections.abc import Callable, Mapping, Sequence
from dataclasses import field

from ..errors import FormatError, type_of_path
from ..formats.script import Line
from ..formats.text import number_of, read_bytes, rows_of
from ..records import dataclass
from ..values import Answer, At, Stuck
from .collapse import FaultClass
from .finding import Finder
from .plan import Plan, is_wrong
from .sequential import Detection

# the places of the outputs that failed, by the look
Failures = Mapping[int, frozenset[int]]


def read_failures(path: type_of_path, plan: Plan, by_pattern: bool) -> dict[int, frozenset[int]]:
    """The failures of a file: a line `TIME OUTPUT..` for each time at which outputs failed or, where `by_pattern` is set, `NUMBER OUTPUT..`
    with the pattern's number, counted from 1. FormatError where a line says none of the times at which the tester looks, or a signal that
    is no output, or the file has no failure."""
    look_at = {(look + 1 if by_pattern else time): look for look, time in enumerate(plan.times)}
    place_of = {name: place for place, name in enumerate(plan.outputs)}
    found: dict[int, set[int]] = {}
    for row in rows_of(read_bytes(path)):
        number, *names = row.words
        value = number_of(number)
        if value is None or not names:
            raise FormatError(path, row.number, "expected a number and the outputs that failed, as `19 G17 G18`")
        if value not in look_at:
            what = f"there is no pattern {value}: there are {len(plan.times)}" if by_pattern else f"the tester does not look at {value}"
            raise FormatError(path, row.number, what)
        for name in names:
            if name not in place_of:
                raise FormatError(path, row.number, f"the netlist has no output {ascii(name)[1:-1]}")
        found.setdefault(look_at[value], set()).update(place_of[name] for name in names)
    if not found:
        raise FormatError(path, None, "there is no failure in the file")
    return {look: frozenset(places) for look, places in found.items()}


@dataclass(slots=True)
class Candidate:
    """A class, and how well it explains the failures: how many it gives that the tester saw, how many only the tester saw, and how many only
    simulation gives. `differing` is how many of the program's answers are other than simulation says; None where it was not asked."""

    own: FaultClass
    explained: int = 0
    missed: int = 0
    beyond: int = 0
    differing: int | None = None
    failures: dict[int, frozenset[int]] = field(default_factory=dict)

    @property
    def errors(self) -> int:
        """The failures that only one of the two gives."""
        return self.missed + self.beyond


def rank(plan: Plan, failures: Failures, finder: Finder, told: Callable[[int], None]) -> list[Candidate]:
    """The classes that explain at least one failure, the best first: those with the fewest failures that only one side gives, and among
    these the ones that explain more. The finder follows each class through all looks."""
    total = sum(map(len, failures.values()))
    explained, beyond = [0] * len(plan.classes), [0] * len(plan.classes)
    none: frozenset[int] = frozenset()

    def take(detection: Detection) -> None:
        seen = failures.get(detection.look, none)
        common = len(seen.intersection(detection.outputs))
        explained[detection.fault] += common
        beyond[detection.fault] += len(detection.outputs) - common

    finder.run(take, told)
    candidates = [Candidate(own, common, total - common, more) for own, common, more in zip(plan.classes, explained, beyond) if common]
    return sorted(candidates, key=lambda one: (one.errors, -one.explained))


def predict(candidates: Sequence[Candidate], finder: Finder) -> None:
    """Takes the failures that simulation gives of each candidate; the finder follows their classes, in their order."""
    def take(detection: Detection) -> None:
        candidates[detection.fault].failures[detection.look] = frozenset(detection.outputs)

    finder.run(take)


def check(plan: Plan, candidate: Candidate, failures: Failures, ask: Callable[[Sequence[Line]], list[Answer]]) -> None:
    """Asks the program for each output and time that failed or should have, without the fault and with it, and counts the answers that are
    other than simulation says."""
    points = [(look, place) for look in sorted({*failures, *candidate.failures})
              for place in sorted(failures.get(look, frozenset()) | candidate.failures.get(look, frozenset()))]
    site = candidate.own.asked.site
    right = ask([plan.at_line(plan.outputs[place], plan.times[look]) for look, place in points])
    reached = {plan.outputs.index(name) for name in plan.reached(site)}
    asked = [point for point in points if point[1] in reached and not site.is_output]
    lines = [plan.stuck_line(candidate.own, plan.outputs[place], (plan.times[look],)) for look, place in asked]
    stuck = dict(zip(asked, ask(lines)))
    candidate.differing = 0
    for (look, place), without in zip(points, right):
        fails = place in candidate.failures.get(look, frozenset())
        held = candidate.own.asked.held if site.is_output and place in reached else None
        candidate.differing += fails != _fails(without, stuck.get((look, place)), held)


def _fails(without: Answer, stuck: Answer | None, held: str | None) -> bool:
    """Whether a tester sees the output fail; one that the fault does not reach does not. `held` is the value of a branch to the output."""
    if not isinstance(without, At):
        return False
    if held is not None:
        return is_wrong(without.value, held)
    return isinstance(stuck, Stuck) and is_wrong(without.value, stuck.wave.value_at(stuck.wave.start))
