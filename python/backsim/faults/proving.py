"""Asks the program for what simulation does not show: each class for all times and all outputs that it reaches.

Where a fault reaches flip-flops a question is for a window of many times. Where it does not, one is for a single time: a window would
also evaluate all that changes in it, which in a multiplier is far more.

What came of each class is kept in a file, line after line, so that a call that was stopped goes on where it was: first a line of what
was asked about, then a line `FAULT not shown`, `FAULT shown TIME OUTPUT` or `FAULT unanswered OUTPUT..` for each class."""
from __future__ import annotations

import hashlib
import io
import threading
from collections.abc import Callable, Sequence
from pathlib import Path
from typing import BinaryIO

from ..errors import FormatError, reason_of, type_of_path
from ..formats.netlist import write_netlist
from ..formats.stimulus import write_stimulus
from ..formats.text import read_bytes
from ..formats.timing import write_timing
from .asking import solve_all
from .collapse import FaultClass
from .forecast import Forecast
from .lists import text_of
from .model import Lines
from .plan import Outcome, Plan


class Kept:
    """A context manager with the file of what came of the classes of a plan. `outcomes` has those that stand in it already. FormatError
    where it is the file of another plan, or has a line that is none of these forms; a last line that was cut is passed over."""

    def __init__(self, path: Path, plan: Plan, lines: Lines) -> None:
        self._path, self._plan, self._lines = path, plan, lines
        self._head = f"asked about {_digest(plan)}"
        self._lock = threading.Lock()
        self._file: BinaryIO | None = None
        self._names = {text_of(own.shown_as, lines): own for own in plan.classes}
        self.outcomes: dict[FaultClass, Outcome] = {}
        if path.exists() and not path.is_file():
            raise FormatError(path, None, "it is no regular file, which --prove-left wants, to go on with what it keeps")
        self._whole = self._read() if path.exists() else 0

    def _read(self) -> int:
        """Takes the lines of the file, and gives the bytes of those that are whole."""
        data = read_bytes(self._path)
        whole = data[:data.rfind(b"\n") + 1]
        for number, line in enumerate(whole.decode("latin-1").splitlines(), 1):
            if number == 1:
                if line != self._head:
                    raise FormatError(self._path, 1, "the file is not of these faults, files, times and budget; name another, which need not be there")
                continue
            name, _, said = line.partition("\t")
            outcome = self._outcome_of(said.split(" "))
            if name not in self._names or outcome is None:
                raise FormatError(self._path, number, f"expected what came of a fault, and found `{ascii(line[:60])[1:-1]}`")
            self.outcomes[self._names[name]] = outcome
        return len(whole)

    def _outcome_of(self, words: Sequence[str]) -> Outcome | None:
        if list(words) == ["not", "shown"]:
            return Outcome(is_confirmed=True)
        if words[:1] == ["unanswered"] and words[1:]:
            return Outcome(unanswered=list(words[1:]))
        if words[:1] == ["shown"] and len(words) == 3:
            time, output = words[1:]
            if time.isdigit() and int(time) in self._plan.times and output in self._plan.outputs:
                return Outcome(int(time), output, 1, True)
        return None

    def __enter__(self) -> Kept:
        try:
            self._file = open(self._path, "ab")
            self._file.truncate(self._whole)
            if not self._whole:
                self._write(self._head)
        except OSError as error:
            raise FormatError(self._path, None, f"it can't be written: {reason_of(error)}") from None
        return self

    def __exit__(self, *_: object) -> None:
        assert self._file is not None
        self._file.close()

    def take(self, own: FaultClass, outcome: Outcome) -> None:
        """Takes what came of a class, and writes it down."""
        if outcome.is_shown:
            said = f"shown {outcome.time} {outcome.output}"
        else:
            said = " ".join(("unanswered", *dict.fromkeys(outcome.unanswered))) if outcome.unanswered else "not shown"
        with self._lock:
            self.outcomes[own] = outcome
            self._write(f"{text_of(own.shown_as, self._lines)}\t{said}")

    def _write(self, line: str) -> None:
        assert self._file is not None
        self._file.write(f"{line}\n".encode("latin-1"))
        self._file.flush()


def _digest(plan: Plan) -> str:
    """A word for the circuit, the times and the budget."""
    made = io.StringIO()
    print(plan.times, plan.budget, plan.made.scale, file=made)
    write_netlist(plan.made.netlist, made)
    write_timing(plan.made.timing, made)
    write_stimulus(plan.made.stimulus, made)
    return hashlib.sha256(made.getvalue().encode("latin-1")).hexdigest()[:32]


def prove_left(plan: Plan, outcomes: dict[FaultClass, Outcome], left: Sequence[FaultClass], kept: Kept, files: Sequence[type_of_path], jobs: int,
               forecast: Forecast, program: type_of_path | None = None, told: Callable[[int], None] = lambda count: None) -> None:
    """Asks for each of these classes that was not asked for yet, and takes what comes of each into `outcomes`. `told` hears of how many
    more times is known what comes of a class, of all times for each class."""
    asked = [own for own in left if own not in kept.outcomes]
    outcomes.update((own, kept.outcomes[own]) for own in left if own in kept.outcomes)
    told(len(plan.times) * (len(left) - len(asked)))

    def take(own: FaultClass, outcome: Outcome) -> None:
        outcomes[own] = outcome
        kept.take(own, outcome)

    if asked:
        with kept:
            solve_all(plan, files, jobs, take, asked, forecast, program, told)
