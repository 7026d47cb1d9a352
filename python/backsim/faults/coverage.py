"""The table of which time shows which fault, and the coverage."""
from __future__ import annotations

import csv
from collections.abc import Iterator
from typing import TextIO

from ..command_line.partial import PARTIAL
from ..records import dataclass
from .collapse import FaultClass
from .lists import text_of
from .model import Fault, Lines
from .plan import Outcome, Plan


@dataclass(frozen=True, slots=True)
class Coverage:
    """The classes of a plan and what came of each. `least` is how many times must show a fault, 1 unless it is to be shown by
    several; `is_simulated` is false where all was asked of the program. Of the classes of `unknown` nothing was known yet when the command
    was interrupted."""

    plan: Plan
    lines: Lines
    outcomes: dict[FaultClass, Outcome]
    least: int = 1
    is_simulated: bool = True
    unknown: frozenset[FaultClass] = frozenset()

    def name(self, own: FaultClass) -> str:
        """The fault that stands for a class."""
        return text_of(own.shown_as, self.lines)

    def classes(self, is_shown: bool) -> list[FaultClass]:
        """The classes that are shown, or those that are not."""
        return [own for own, outcome in self.outcomes.items() if outcome.is_shown == is_shown]

    def faults(self, is_shown: bool) -> list[Fault]:
        """The faults of these classes, each with those that are equivalent."""
        return [fault for own in self.classes(is_shown) for fault in own.members]

    def unreached(self) -> dict[FaultClass, None]:
        """The classes from which no way leads to an output, so that no pattern shows them."""
        return dict.fromkeys(own for own in self.outcomes if not self.plan.reached(own.asked.site))

    def table(self) -> Iterator[str]:
        """The lines of the table: for each time that shows faults those that no earlier time shows, those that none shows, the coverage,
        and what it rests on."""
        by_time: dict[int | None, list[str]] = {}
        for own, outcome in self.outcomes.items():
            by_time.setdefault(outcome.time, []).append(self.name(own))
        for time in self.plan.times:
            if time in by_time:
                yield f"{time}: {', '.join(by_time[time])}"
        hidden = self.unreached()
        if hidden:
            yield f"no way to an output: {', '.join(map(self.name, hidden))}"
        left = [own for own in self.classes(False) if own not in hidden and own not in self.unknown]
        yield f"not shown: {', '.join(map(self.name, left))}".rstrip()
        yield from self._counts()
        yield from self._grounds()

    def _counts(self) -> Iterator[str]:
        shown, total = len(self.classes(True)), len(self.outcomes)
        members, whole = len(self.faults(True)), sum(len(own.members) for own in self.outcomes)
        if whole != total:
            yield f"collapsed: shown {shown} of {total} faults, {percent(shown, total)}"
            yield f"uncollapsed: shown {members} of {whole} faults, {percent(members, whole)}"
        else:
            yield f"shown {shown} of {total} faults, {percent(shown, total)}"
        if self.least > 1:
            often = sum(len(own.members) for own, outcome in self.outcomes.items() if outcome.count >= self.least)
            yield f"shown at {self.least} times or more: {often} of {whole} faults, {percent(often, whole)}"

    def _grounds(self) -> Iterator[str]:
        """What the program itself said, and what rests on simulation alone."""
        shown, left = self.classes(True), [own for own in self.classes(False) if own not in self.unknown]
        confirmed = sum(self.outcomes[own].is_confirmed for own in shown)
        yield f"confirmed by the program: {confirmed} of {len(shown)} that are shown"
        asked = sum(self.outcomes[own].is_confirmed for own in left)
        if asked < len(left) and self.is_simulated:
            yield f"simulation alone says of {len(left) - asked} that no time shows them (--prove-left FILE asks the program)"
        elif left:
            yield f"asked of the program at all times: the {len(left)} that none shows"
        if self.unknown:
            yield f"nothing is known yet of {len(self.unknown)}"

    def write_csv(self, stream: TextIO, is_partial: bool = False) -> None:
        """A row for each fault: the fault, the one that stands for its class, the first time that shows it and an output that does,
        both empty where it is not shown, at how many times it is shown, of those that were looked at, and whether the program says so. A last
        row says that the table is partial."""
        rows = csv.writer(stream, lineterminator="\n")
        rows.writerow(("fault", "class", "time", "output", "times", "confirmed"))
        for own, outcome in self.outcomes.items():
            for fault in own.members:
                rows.writerow((text_of(fault, self.lines), self.name(own), "" if outcome.time is None else outcome.time,
                               outcome.output or "", outcome.count, "yes" if outcome.is_confirmed else "no"))
        if is_partial:
            rows.writerow((PARTIAL,))


def percent(part: int, whole: int) -> str:
    """The part of a whole in percent, rounded down."""
    # never rounded up to 100 where one is left
    return f"{part * 10000 // whole / 100:.2f} %" if whole else "100.00 %"
