"""Asks the program for what simulation found: of each class one output at one time, without the fault and with it."""
from __future__ import annotations

import time
from collections.abc import Callable, Iterable, Iterator, Mapping, Sequence
from typing import NamedTuple

from ..errors import type_of_path
from ..formats.script import Line, StuckLine
from ..limits import HELD_CELLS
from ..values import Answer, At, Stuck
from .asking import Asker, Crew
from .collapse import FaultClass
from .forecast import Forecast
from .late import confirm_late
from .plan import Outcome, Plan, is_wrong
from .portions import Portion, portions_of

_AT_ONCE = 64
# with flip-flops a question costs as many looks as it has before it
_LOOKS_AT_ONCE = 256
# after so many answers by the budget in turn those that come later would be so too
_IN_VAIN = 16


class Unconfirmed(NamedTuple):
    """The classes of which the program says otherwise than simulation, and those that their budget left unconfirmed."""

    differing: list[FaultClass]
    unanswered: list[FaultClass]


def confirm(plan: Plan, found: Mapping[FaultClass, Outcome], files: Sequence[type_of_path], jobs: int, forecast: Forecast,
            program: type_of_path | None = None, told: Callable[[int], None] = lambda count: None) -> Unconfirmed:
    """Marks those outcomes that the program confirms, and gives the classes of the others. A question that is answered by the plan's
    budget leaves its class unconfirmed. With flip-flops a question works out all that was before it, so a `stuck` line has no more
    evaluations than its memo has cells, and what takes more is asked otherwise (`late`). `told` hears how many more are done."""
    # by time and output, so that a session finds much of what a question needs in its memo
    shown = sorted((own for own, outcome in found.items() if outcome.is_shown), key=lambda own: (found[own].time, found[own].output))
    unanswered: set[FaultClass] = set()
    if shown:
        with Crew(files, min(jobs, len(shown)), program) as crew:
            if plan.has_flops:
                late = _ask(plan.with_budget(min(plan.budget, HELD_CELLS)), shown, found, files, crew, forecast, told)
                unanswered = confirm_late(plan, [own for own in shown if own in late], found, files, crew, forecast, told)
            else:
                unanswered = _ask(plan, shown, found, files, crew, forecast, told)
                told(len(unanswered))
    others = [own for own in shown if not found[own].is_confirmed]
    return Unconfirmed([own for own in others if own not in unanswered], [own for own in others if own in unanswered])


def _ask(plan: Plan, shown: Sequence[FaultClass], found: Mapping[FaultClass, Outcome], files: Sequence[type_of_path], crew: Crew,
         forecast: Forecast, told: Callable[[int], None]) -> set[FaultClass]:
    """Asks `stuck` lines, and gives the classes whose budget was too small. With flip-flops nothing is asked any more after so many in
    turn. `told` hears of the others."""
    unanswered: set[FaultClass] = set()
    in_vain = 0

    def weight_of(own: FaultClass) -> int:
        return plan.looks_before(found[own].time or 0)

    forecast.expect("stuck", sum(map(weight_of, shown)))

    def work(asker: Asker, task: tuple[Portion, Sequence[FaultClass]]) -> None:
        nonlocal in_vain
        portion, part = task
        weight, begun = sum(weight_of(own) for own in part), time.monotonic()
        if plan.has_flops and in_vain >= _IN_VAIN:
            unanswered.update(part)
            forecast.expect("stuck", -weight)
            return
        own_plan, own_files = portion.made()
        asker.turn_to(own_files)
        lines = _questions(own_plan, part, found)
        answers = dict(zip(map(str, lines), asker.ask(lines)))
        answered = 0
        for own in part:
            asked = [answers[str(line)] for line in _lines(own_plan, own, found[own])]
            if all(isinstance(answer, (At, Stuck)) for answer in asked):
                found[own].is_confirmed = _is_confirmed(own, asked)
                answered += 1
                in_vain = 0
            else:
                unanswered.add(own)
                in_vain += 1
        forecast.took("stuck", weight, time.monotonic() - begun)
        told(answered)

    crew.share([(portion, part) for portion in portions_of(plan, shown, files) for part in _parts(plan, portion.classes, found)], work)
    return unanswered


def _parts(plan: Plan, classes: Sequence[FaultClass], found: Mapping[FaultClass, Outcome]) -> Iterator[Sequence[FaultClass]]:
    """The classes in parts that are asked at once, none of which takes long."""
    part: list[FaultClass] = []
    looks = 0
    for own in classes:
        part.append(own)
        looks += plan.looks_before(found[own].time or 0)
        if len(part) == _AT_ONCE or looks >= _LOOKS_AT_ONCE:
            yield part
            part, looks = [], 0
    if part:
        yield part


def _questions(plan: Plan, part: Iterable[FaultClass], found: Mapping[FaultClass, Outcome]) -> list[Line]:
    """The lines, those for values without a fault each once and before the others, since they make batches."""
    lines = dict.fromkeys(line for own in part for line in _lines(plan, own, found[own]))
    return sorted(lines, key=lambda line: isinstance(line, StuckLine))


def _lines(plan: Plan, own: FaultClass, outcome: Outcome) -> list[Line]:
    """What asks for the output without the fault; of a line that is slow for its signal at the look before; and for the output with the
    fault, where that is not at the output itself."""
    time, output, fault = outcome.time or 0, outcome.output or "", own.asked
    lines: list[Line] = [plan.at_line(output, time)]
    if fault.is_transition:
        lines.append(plan.at_line(fault.site.source, plan.time_before(time)))
    if not fault.site.is_output:
        lines.append(plan.stuck_line(own, output, (time,)))
    return lines


def _is_confirmed(own: FaultClass, answers: Sequence[Answer]) -> bool:
    """Whether the answers to the lines of a class say that it is shown."""
    right, *before = (answer.value for answer in answers if isinstance(answer, At))
    if before and before[0] != own.asked.held:
        return False
    wrong = next((answer.wave.value_at(answer.wave.start) for answer in answers if isinstance(answer, Stuck)), own.asked.held)
    return is_wrong(right, wrong)
