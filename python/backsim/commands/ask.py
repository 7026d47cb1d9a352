"""A prompt: a question a line, and its answer at once."""
from __future__ import annotations

import argparse
import os
import signal
import sys
import threading
from collections.abc import Iterator
from contextlib import contextmanager, nullcontext, suppress
from pathlib import Path
from types import FrameType
from typing import Any

from ..command_line.arguments import add_files, add_memo, add_program, lines_of_file, unit_of_session
from ..errors import BacksimError
from ..prompting.answers import Answers
from ..prompting.complete import Names, completed
from ..session.outcomes import SessionError
from ..session.session import Session

HELP = "a prompt: a question a line, an answer at once; names are completed by Tab"
EXAMPLE = """\
  backsim-tools ask examples/s27/s27.bench examples/s27/s27.timing examples/s27/s27.stim
  echo 'why G17 4' | backsim-tools ask examples/s27/s27.bench examples/s27/s27.timing examples/s27/s27.stim

`help` lists what can be asked. Where standard input is no terminal its lines are the questions, and a line that has no answer is told
with its number on standard error; the status is 2 then."""
_PROMPT = "> "
_MOST_HISTORY = 1000


def add_arguments(parser: argparse.ArgumentParser) -> None:
    add_files(parser)
    add_memo(parser)
    add_program(parser)


def run(arguments: argparse.Namespace) -> int:
    prompt = _Prompt(arguments)
    return prompt.talk() if sys.stdin.isatty() else prompt.read()


class _Prompt:
    """The session of a prompt, which begins anew where a question is given up."""

    def __init__(self, arguments: argparse.Namespace) -> None:
        self._arguments = arguments
        self._is_interrupted = False
        self._session = self._begun()

    def _begun(self) -> Session:
        own = self._arguments
        return Session(own.netlist, own.timing, own.stimulus, workers=own.workers, shards=own.shards, cells=own.cells, program=own.program)

    def _answers(self) -> Answers:
        own = self._arguments
        return Answers(self._session, own.netlist, own.stimulus, unit_of_session(own.timing, own.stimulus))

    def read(self) -> int:
        """Answers the lines of standard input."""
        status = 0
        answers = self._answers()
        with self._session:
            for number, line in enumerate(lines_of_file("-"), 1):
                try:
                    for text in answers.lines(line.decode("utf-8", "backslashreplace")):
                        print(text)
                    sys.stdout.flush()
                except EOFError:
                    break
                except SessionError:
                    raise
                except BacksimError as error:
                    print(f"standard input:{number}: {error}", file=sys.stderr)
                    status = 2
        return status

    def talk(self) -> int:
        """Answers the lines that are typed."""
        before, told = signal.signal(signal.SIGINT, self._interrupt), sys.unraisablehook
        sys.unraisablehook = _told_but_interrupts
        try:
            with _Line(self) as line:
                print(f"{os.path.basename(self._arguments.netlist)}, times 0 to {self._session.horizon:,}; `help` lists what can be asked")
                answers = self._answers()
                while True:
                    try:
                        if self._is_interrupted:
                            answers = self._begun_anew()
                        text = line.next()
                        if text is None:
                            break
                        self._answer(answers, text)
                    except KeyboardInterrupt:
                        print()  # Ctrl-C between an answer and the next line
        except EOFError:
            pass
        finally:
            signal.signal(signal.SIGINT, before)
            sys.unraisablehook = told
            self._session.close()
        return 0

    def _interrupt(self, number: int, frame: FrameType | None) -> None:
        """Ctrl-C. It is noted too, since Python lets go of an exception that comes while an object is removed."""
        self._is_interrupted = True
        raise KeyboardInterrupt

    def _answer(self, answers: Answers, line: str) -> None:
        """Writes the answer to a line, or that it was given up, whatever came of it by then."""
        try:
            for text in answers.lines(line):
                print(text)
        except KeyboardInterrupt:
            pass
        except SessionError:
            if not self._is_interrupted:
                raise
        except BacksimError as error:
            if not self._is_interrupted:
                print(error)
        if self._is_interrupted:
            print("given up; the session begins anew")

    def _begun_anew(self) -> Answers:
        """What answers by another session, after Ctrl-C: a terminal sends that to the program too, which may have ended by it."""
        self._is_interrupted = False
        with suppress(SessionError):
            self._session.close()
        self._session = self._begun()
        return self._answers()

    def names(self) -> Names:
        """The names of the netlist."""
        netlist = self._session.netlist
        return Names(netlist.names, netlist.ascending)


class _Line:
    """The line that is typed, with Tab, and a history that is kept from call to call."""

    def __init__(self, prompt: _Prompt) -> None:
        self._prompt = prompt
        self._names: Names | None = None
        self._found: list[str] = []
        self._readline: Any = None
        self._has_key = False
        state = os.environ.get("XDG_STATE_HOME") or os.path.expanduser("~/.local/state")
        self._history = Path(state) / "backsim" / "history"

    def __enter__(self) -> _Line:
        try:
            import readline
        except ImportError:
            return self
        self._readline = readline
        try:
            readline.read_history_file(self._history)
        except OSError:
            pass
        readline.set_history_length(_MOST_HISTORY)
        readline.set_completer_delims(" \t\n")
        readline.set_completer(self._completion)
        readline.parse_and_bind("tab: complete")
        # to the beginning of the line, away with its rest, and the end of an empty one
        self._has_key = "libedit" not in (readline.__doc__ or "")
        if self._has_key:
            readline.parse_and_bind(r'"\C-c": "\C-a\C-k\C-m"')
        # the netlist is read while the first line is typed
        threading.Thread(target=self._read_names, daemon=True).start()
        return self

    def __exit__(self, *_: object) -> None:
        if self._readline is None:
            return
        try:
            self._history.parent.mkdir(parents=True, exist_ok=True)
            self._readline.write_history_file(self._history)
        except OSError:
            pass

    def _read_names(self) -> None:
        try:
            self._names = self._prompt.names()
        except BacksimError:
            pass

    def _completion(self, text: str, state: int) -> str | None:
        if state == 0:
            if self._names is None:
                self._read_names()
            line, begin = self._readline.get_line_buffer(), self._readline.get_begidx()
            self._found = completed(self._names or Names(()), line, begin, text)
        return self._found[state] if state < len(self._found) else None

    def next(self) -> str | None:
        """The next line, or None at the end. Ctrl-C gives up what was typed: where readline is GNU's it is a key while a line is typed, since a
        signal that comes directly before Python waits for a key is noticed only with the next one."""
        while True:
            try:
                with _without_interrupts() if self._has_key else nullcontext():
                    return input(_PROMPT)
            except EOFError:
                print()
                return None
            except KeyboardInterrupt:
                print()


@contextmanager
def _without_interrupts() -> Iterator[None]:
    """Has the terminal of standard input give Ctrl-C as a key."""
    import termios  # there is none on Windows
    terminal = sys.stdin.fileno()
    before = termios.tcgetattr(terminal)
    keys = termios.tcgetattr(terminal)
    keys[6][termios.VINTR] = b"\0"
    termios.tcsetattr(terminal, termios.TCSANOW, keys)
    try:
        yield
    finally:
        termios.tcsetattr(terminal, termios.TCSANOW, before)


def _told_but_interrupts(what: sys.UnraisableHookArgs) -> None:
    """Tells an exception of which Python let go, but for those of Ctrl-C."""
    if what.exc_type is not KeyboardInterrupt:
        sys.__unraisablehook__(what)
