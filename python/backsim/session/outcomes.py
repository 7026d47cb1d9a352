"""How sessions end that do not end well: exceptions that say in words what the program's status and lines mean (docs/use/FORMATS.md, Statuses
and standard error)."""
from __future__ import annotations

import os
from collections.abc import Sequence
from typing import TYPE_CHECKING

from ..errors import BacksimError, reason_of
from ..formats import causes
from ..formats.marks import MARK, has_mark

if TYPE_CHECKING:
    from ..formats.script import Line
    from ..values import Answer, Refusal

# a fault may pass: a read or a write failed, or memory ran out; above 128 a signal ended the program
_PASSING = (3, 4, 6)
FAULTS = {3: "could not be read", 4: "could not be written", 5: "could not be opened"}
_ENDS = {0: "the program ended before all was answered", 1: "the program does not take these words", 6: "the program ran out of memory",
         7: "the program could not be built"}
_SIGNALS = 128
# how the files begin that the program makes
_BEGINNINGS = {"journal": b"journal shards", "vcd": b"$"}
_MOST_SHOWN = 200


class SessionError(BacksimError):
    """A session that did not end well. `status` is that of the program; `answered` has the pairs of a line and its answer that the
    call had got before."""

    def __init__(self, text: str, status: int) -> None:
        super().__init__(text)
        self.status = status
        self.answered: tuple[tuple[Line, Answer], ...] = ()


class Refused(SessionError):
    """The program refused a file. `file` is `netlist`, `timing`, `stimulus` or `script`, `path` its name, `line` the line at fault
    (None where no line is), `line_text` the text of that line, `cause` the cause in words, `number` its number, and `reply` the
    program's own line."""

    def __init__(self, refusal: Refusal, path: str, reply: bytes) -> None:
        self.file, self.path, self.reply = refusal.file, path, reply
        self.line = refusal.line or None
        self.number = refusal.cause
        limit = "16 MiB" if refusal.file == "script" else "64 MiB"
        self.cause = f"it has more than {limit}" if refusal.cause is None else causes.in_words(refusal.file, refusal.cause)
        self.line_text = _line_of(path, self.line) if self.line else ""
        if self.line == 1 and has_mark(self.line_text.encode("latin-1")):
            self.cause, self.line_text = MARK, ""
        place = path if self.line is None else f"{path}:{self.line}"
        super().__init__(f"{place}: {self.cause}" + (f": `{self.line_text.strip()}`" if self.line_text else ""), 2)


class Fault(SessionError):
    """A file could not be opened, read, written or finished. `place` is the program's word for it, and `path` the file's name where
    the place is a file. `inputs` are the names of the three files of the circuit."""

    def __init__(self, status: int, place: str, path: str | None, inputs: Sequence[str] = ()) -> None:
        self.place, self.path = place, path
        reason = _reason_of(path, place, inputs) if path else ""
        what = {"vcd": "dump", "timing": "timing file"}.get(place, place)
        done = "could not be created or finished" if status == 5 and place in _BEGINNINGS else FAULTS[status]
        super().__init__(f"{path or f'backsim: {place}'}: the {what} {done}" + (f": {reason}" if reason else ""), status)


def _line_of(path: str, number: int) -> str:
    """The text of a line of a file, in at most 200 characters, or an empty text."""
    try:
        with open(path, "rb") as file:
            for place, line in enumerate(file, 1):
                if place == number:
                    return line[:_MOST_SHOWN].decode("latin-1").rstrip("\r\n")
    except OSError:
        pass
    return ""


def _reason_of(path: str, place: str, inputs: Sequence[str]) -> str:
    """Why the system does not give the file, or the program does not write over it, where that can still be seen."""
    try:
        if place in _BEGINNINGS:
            return _reason_of_output(path, place, inputs)
        with open(path, "rb") as file:
            file.read(1)
    except (OSError, ValueError) as error:
        return reason_of(error)
    return ""


def _reason_of_output(path: str, place: str, inputs: Sequence[str]) -> str:
    folder = os.path.dirname(path) or "."
    if os.path.isdir(path):
        return "it is a folder"
    if not os.path.exists(path):
        return "" if os.access(folder, os.W_OK) else f"no file can be made in {folder}" + ("" if os.path.isdir(folder) else ", which is no folder")
    for name, given in zip(("netlist", "timing file", "stimulus"), inputs):
        if os.path.exists(given) and os.path.samefile(path, given):
            return f"it is the {name} of the session"
    if not os.access(path, os.W_OK):
        return "it may not be written"
    if os.path.isfile(path):
        with open(path, "rb") as file:
            begun = file.read(len(_BEGINNINGS[place]))
        if begun and begun != _BEGINNINGS[place]:
            return "a file that is none stands there, and is left as it is"
    return ""


def ended(status: int, said: Sequence[str]) -> SessionError:
    """The exception for a status that names no file, with the lines of standard error; of 128 and more a signal ended the program."""
    text = f"the program was ended by signal {status - _SIGNALS}" if status > _SIGNALS else f"the program ended with status {status}"
    shown = f": {' '.join(said)}" if said and status != 6 else ""
    return SessionError(f"backsim: {_ENDS.get(status, text)}{shown}", status or 1)


def may_pass(status: int) -> bool:
    """Whether the program ended by a fault after which it may be tried again."""
    return status in _PASSING or status > _SIGNALS
