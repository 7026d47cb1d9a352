"""Divides the classes of a plan into portions, each asked over a circuit in which only its own branches are signals.

A branch that is a signal takes an evaluation more wherever a question comes through it. With all branches of a circuit a question takes
two to three times the evaluations; with those of a portion, some eighth more."""
from __future__ import annotations

import tempfile
import threading
from collections.abc import Iterator, Sequence
from pathlib import Path

from ..errors import type_of_path
from .circuit_files import write_netlist_and_timing
from .collapse import FaultClass
from .plan import Plan

_LEAST_BRANCHES = 256
_GATES_TO_A_BRANCH = 8
Files = Sequence[type_of_path]


class Portion:
    """Some classes of a plan. `folder` is where the files of their circuit are written, None where they are asked over that of all."""

    def __init__(self, plan: Plan, classes: Sequence[FaultClass], files: Files, folder: Path | None) -> None:
        self.classes = classes
        self._plan, self._files, self._folder = plan, files, folder
        self._lock = threading.Lock()

    def made(self) -> tuple[Plan, Files]:
        """The plan of these classes and the three files of its circuit, which are written when they are first asked for."""
        with self._lock:
            if self._folder is not None:
                self._plan = self._plan.part(self.classes)
                own = tempfile.mkdtemp(dir=self._folder)
                self._files = (*write_netlist_and_timing(self._plan.made, Path(own)), self._files[2])
                self._folder = None
            return self._plan, self._files


def portions_of(plan: Plan, classes: Sequence[FaultClass], files: Files) -> Iterator[Portion]:
    """The classes in portions, in their order. `files` are those of the plan's circuit. Where that is too great to be asked, it was made
    with branches, so the files of portions are written beside its own."""
    branches = len(plan.made.signals)
    most = max(_LEAST_BRANCHES, (len(plan.made.netlist.gates) - branches) // _GATES_TO_A_BRANCH)
    if branches <= most:
        yield Portion(plan, classes, files, None)
        return
    folder = Path(files[0]).parent
    own: list[FaultClass] = []
    count = 0
    for one in classes:
        if count == most:
            yield Portion(plan, own, files, folder)
            own, count = [], 0
        own.append(one)
        count += one.asked.site in plan.made.signals
    if own:
        yield Portion(plan, own, files, folder)
