"""Confirms faults of circuits with flip-flops that take more than a question may have.

A `stuck` line works out all that was before it in one question, with one budget, in a memo that ends with it. Here each fault has a
session of its own, over the circuit in which its line is forced, which is that of the `stuck` line. It is asked for the output at one time
after another on the way to the one that shows the fault, so that no question works out more than some periods."""
from __future__ import annotations

import tempfile
import time
from collections.abc import Callable, Mapping, Sequence
from pathlib import Path

from ..circuit.forced import write_forced
from ..errors import FormatError, reason_of, type_of_path
from ..formats.script import AtLine
from ..values import Answer, At
from .asking import Asker, Crew
from .collapse import FaultClass
from .forecast import Forecast
from .plan import Outcome, Plan, is_wrong
from .portions import Portion, portions_of

_MOST_PERIODS = 16
# after so many answers by the budget in turn those that come later would be so too
_IN_VAIN = 16


def confirm_late(plan: Plan, classes: Sequence[FaultClass], found: Mapping[FaultClass, Outcome], files: Sequence[type_of_path], crew: Crew,
                 forecast: Forecast, told: Callable[[int], None]) -> set[FaultClass]:
    """Marks those outcomes of these classes, ascending by time, that the program confirms, and gives the classes that their budget left
    unanswered; after so many in turn no more are asked. `told` hears how many more are done."""
    unanswered: set[FaultClass] = set()
    if not classes:
        return unanswered
    in_vain = 0
    portions = list(portions_of(plan, classes, files))
    right: dict[tuple[str, int], Answer] = {}

    def ask_right(asker: Asker, portion: Portion) -> None:
        """Asks for all values without a fault."""
        own_plan, own_files = portion.made()
        asker.turn_to(own_files)
        since = 0
        for own in classes:
            output, shown_at = place = _place(found[own])
            if place not in right:
                right[place] = _asked(asker, _way(own_plan, output, since, shown_at))
            if not isinstance(right[place], At):
                # its past may have little in common with that of the outputs before
                right[place] = _asked(asker, _way(own_plan, output, 0, shown_at))
            since = shown_at

    def work(asker: Asker, task: tuple[Portion, FaultClass]) -> None:
        nonlocal in_vain
        portion, own = task
        place, begun = _place(found[own]), time.monotonic()
        good, wrong = right[place], None
        if in_vain < _IN_VAIN:
            wrong = At(*place, own.asked.held) if own.asked.site.is_output else _with_fault(asker, portion, own, place)
        if isinstance(good, At) and isinstance(wrong, At):
            found[own].is_confirmed = is_wrong(good.value, wrong.value)
            in_vain = 0
        else:
            unanswered.add(own)
            in_vain += 1
        forecast.took("late", plan.looks_before(place[1]), time.monotonic() - begun)
        told(1)

    forecast.expect("late", sum(plan.looks_before(_place(found[own])[1]) for own in classes))
    crew.share(portions[:1], ask_right)
    crew.share([(portion, own) for portion in portions for own in portion.classes], work)
    return unanswered


def _place(outcome: Outcome) -> tuple[str, int]:
    """The output that shows a fault, and when."""
    return outcome.output or "", outcome.time or 0


def _with_fault(asker: Asker, portion: Portion, own: FaultClass, place: tuple[str, int]) -> Answer:
    """What the output has then with the fault."""
    plan, files = portion.made()
    with tempfile.TemporaryDirectory(prefix="backsim-") as folder:
        try:
            forced = write_forced(files, plan.made.signal(own.asked.site), own.asked.held, Path(folder))
        except OSError as error:
            raise FormatError(folder, None, f"it can't be written: {reason_of(error)}") from None
        asker.turn_to(forced)
        answer = _asked(asker, _way(plan, place[0], 0, place[1]))
        asker.close()
    return answer


def _asked(asker: Asker, way: Sequence[AtLine]) -> Answer:
    """The last answer, or the first that is none."""
    for line in way:
        answer, = asker.ask([line])
        if not isinstance(answer, At):
            break
    return answer


def _way(plan: Plan, output: str, since: int, last: int) -> list[AtLine]:
    """What asks for the output at times on the way to the last of them."""
    periods = max(1, min(_MOST_PERIODS, plan.budget // (2 * len(plan.made.netlist.names))))
    return [plan.at_line(output, own) for own in range(last, since - 1, -periods * plan.period)][::-1]
