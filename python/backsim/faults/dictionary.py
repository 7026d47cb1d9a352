"""A fault dictionary: for each fault the times that show it, and the outputs that do so then."""
from __future__ import annotations

import csv
from array import array
from typing import TextIO

from ..command_line.partial import PARTIAL
from .coverage import Coverage
from .sequential import Detection


class Dictionary:
    """Takes detections. Each takes eight bytes; the sets of outputs are kept once."""

    def __init__(self, classes: int) -> None:
        self._entries = [array("I") for _ in range(classes)]
        self._outputs: dict[tuple[int, ...], int] = {}

    def take(self, detection: Detection) -> None:
        """Takes a detection; those of a class come by ascending looks."""
        self._entries[detection.fault].extend((detection.look, self._outputs.setdefault(detection.outputs, len(self._outputs))))

    def write(self, coverage: Coverage, stream: TextIO, is_partial: bool) -> None:
        """Writes a row for each class and time: the fault that stands for the class, the time, and the outputs with blanks between. A last
        row says that the dictionary is partial."""
        plan = coverage.plan
        names = [" ".join(plan.outputs[place] for place in places) for places in self._outputs]
        rows = csv.writer(stream, lineterminator="\n")
        rows.writerow(("fault", "time", "outputs"))
        for own, entries in zip(plan.classes, self._entries):
            name = coverage.name(own)
            rows.writerows((name, plan.times[look], names[outputs]) for look, outputs in zip(entries[::2], entries[1::2]))
        if is_partial:
            rows.writerow((PARTIAL,))
