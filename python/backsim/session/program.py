"""Finds the program, starts it, and talks to it through its pipes.

A `Conversation` has one process. It writes what is queued while it reads, in one loop, so that neither side can wait for the other
for ever, whatever the length of a batch. What reads replies is imported with the first that is none of the usual ones."""
from __future__ import annotations

import os
import re
import select
import shutil
import signal
import subprocess
import sys
import threading
from collections.abc import Callable, Iterator, Sequence
from contextlib import contextmanager
from typing import TYPE_CHECKING, NamedTuple, TypeVar

from ..errors import FormatError, UsageError, reason_of, type_of_path
from ..limits import MOST_CELLS, MOST_SHARDS, MOST_WORKERS
from ..scripts.parts import TextLine
from .checks import whole_number
from .outcomes import FAULTS, Fault, Refused, SessionError, ended

if TYPE_CHECKING:
    from ..formats.replies import Reply
    from ..formats.script import Line
    from ..values import Refusal

TOP = os.path.realpath(os.path.join(__file__, *[os.pardir] * 4))
L = TypeVar("L", "Line", TextLine)
T = TypeVar("T")
_CHUNK = 1 << 16
_MOST_QUEUED = 1 << 20
_END = b"\nend\n"
# how replies begin that end with a line `end`; the others have one line
_LONG = (b"wave ", b"stuck ", b"why ")
_BEGINS = b"(?:" + b"|".join(_LONG) + b")"
# a long reply; one that is not whole, and so the rest; another reply; and one that is not whole
_REPLIES = re.compile(_BEGINS + rb"[^\n]*\n(?:[^\n]*\n)*?end\n|(?s:" + _BEGINS + rb".*)|[^\n]*\n|[^\n]+\Z")
_NOT_BUILT = 7
# glibc asks for large pages, where the system lets it; a long session takes a tenth less then
LARGE_PAGES = {"GLIBC_TUNABLES": "glibc.malloc.hugetlb=1"}
_PLACES = {"netlist": 0, "timing": 1, "stimulus": 2, "journal": 3}


class Options(NamedTuple):
    """The options of a session; None leaves one out. Workers and shards are 1 to 64, cells (of each shard) 1 to 65,536. The room for
    cells is as great as it may be where nothing else is said: what is evaluated again for want of it costs more than the memory, some
    100 bytes for each cell that comes."""

    workers: int | None = None
    shards: int | None = None
    cells: int | None = MOST_CELLS

    def words(self) -> list[str]:
        """The options as words of a command. UsageError where a number is out of its range."""
        words: list[str] = []
        for name, number, most in zip(self._fields, self, (MOST_WORKERS, MOST_SHARDS, MOST_CELLS)):
            if number is None:
                continue
            words += [f"--{name}", str(whole_number(number, f"number of {name}", 1, most))]
        return words


@contextmanager
def interrupt_held() -> Iterator[None]:
    """Holds an interrupt (SIGINT) back until the end, and what ends a command as one (SIGTERM, SIGHUP), so that a process which is started
    inside is known where it is to be ended. Only the main thread is interrupted; in others nothing is held."""
    before = {number: signal.getsignal(number) for number in (signal.SIGINT, signal.SIGTERM, signal.SIGHUP)}
    held = [number for number, handler in before.items() if callable(handler)]
    if threading.current_thread() is not threading.main_thread() or not held:
        yield
        return
    came: list[int] = []
    for number in held:
        signal.signal(number, lambda number, _: came.append(number))
    try:
        yield
    finally:
        for number in held:
            signal.signal(number, before[number])
        if came:
            signal.raise_signal(came[0])


def find_program(given: type_of_path | None = None) -> str:
    """The program: the one that is given, else that of the environment variable BACKSIM, else the launcher at the top of the
    repository in which this package lies, else the nearest `bin/backsim` in a folder above the package, as an installation has it, else
    `backsim` on PATH. UsageError where it is none of these."""
    named = given or os.environ.get("BACKSIM")
    if named:
        found = shutil.which(os.fspath(named))
        if found is None:
            raise UsageError(f"{os.fspath(named)}: there is no program of this name")
        return found
    found = shutil.which(os.path.join(TOP, "backsim")) or _installed() or shutil.which("backsim")
    if found is None:
        raise UsageError("the program backsim is not found: name it by the environment variable BACKSIM")
    return found


def _installed() -> str | None:
    """The program that was installed with this package."""
    folder = os.path.dirname(os.path.dirname(os.path.abspath(__file__)))
    while folder != os.path.dirname(folder):
        folder = os.path.dirname(folder)
        found = shutil.which(os.path.join(folder, "bin", "backsim"))
        if found is not None:
            return found
    return None


def looked_up(given: type_of_path | None = None) -> str:
    """As `find_program`, but for the launcher of the repository the program that it would run, which it finds by looking at all sources,
    and builds where there is none. Whoever starts several processes has it look once. SessionError where the program can't be built."""
    found = find_program(given)
    if found != os.path.join(TOP, "backsim"):
        return found
    try:
        tool = os.path.join(TOP, "tools", "program")
        ran = subprocess.run([tool, "backsim"], stdin=subprocess.DEVNULL, stdout=subprocess.PIPE, check=False)
    except OSError:
        return found
    if ran.returncode:
        raise ended(_NOT_BUILT, ())
    return os.fsdecode(ran.stdout).removesuffix("\n")


class Conversation:
    """A process of the program over three files and a journal. `send` queues lines, `replies_to` and `next_reply` read replies, `finish`
    ends it."""

    def __init__(self, files: Sequence[type_of_path], options: Options = Options(), program: type_of_path | None = None) -> None:
        self.files = [os.fspath(path) for path in files]
        # a name that begins with - is a name after --
        words = [find_program(program), *options.words(), "--", *self.files]
        try:
            self._process = subprocess.Popen(words, bufsize=0, stdin=subprocess.PIPE, stdout=subprocess.PIPE, stderr=subprocess.PIPE,
                                             env={**LARGE_PAGES, **os.environ})
        except (OSError, ValueError) as error:
            # of a file's name with a NUL byte no word is made
            at_fault = next((repr(word) for word in words if "\0" in word), words[0])
            raise UsageError(f"{at_fault}: {reason_of(error)}") from None
        assert self._process.stdin and self._process.stdout and self._process.stderr
        self._pipes = self._process.stdin, self._process.stdout, self._process.stderr
        self._in, self._out, self._err = (pipe.fileno() for pipe in self._pipes)
        for pipe in (self._in, self._out, self._err):
            os.set_blocking(pipe, False)
        self._poll = select.poll()
        self._poll.register(self._out, select.POLLIN)
        self._poll.register(self._err, select.POLLIN)
        self._queue = bytearray()
        self._is_writing = False
        self._ends_input = False
        self._got = bytearray()
        self._searched = 0
        self._whole: list[bytes] = []
        self._errors = b""
        self._open = {self._out, self._err}
        self._count = 0
        self._failure: SessionError | None = None
        self._dump: str | None = None
        self.refusal: Refusal | None = None
        self._refusal_text = b""

    def send(self, data: bytes) -> None:
        """Queues bytes of the script; they are written while replies are read."""
        self._queue += data
        self._watch_input()

    def end_input(self) -> None:
        """The script ends with what is queued."""
        self._ends_input = True
        self._watch_input()

    def _watch_input(self) -> None:
        """Writes what the pipe takes at once, and has the loop write the rest."""
        if self._in < 0:
            self._queue.clear()
            return
        if not self._is_writing:
            self._write()

    def _write(self) -> None:
        try:
            while self._queue:
                del self._queue[:os.write(self._in, self._queue[:_CHUNK])]
        except BlockingIOError:
            if not self._is_writing:
                self._poll.register(self._in, select.POLLOUT)
                self._is_writing = True
            return
        except BrokenPipeError:
            self._queue.clear()
            self._ends_input = True
        if self._is_writing:
            self._poll.unregister(self._in)
            self._is_writing = False
        if self._ends_input:
            self._close_input()

    def _close_input(self) -> None:
        if self._in >= 0:
            if self._is_writing:
                self._poll.unregister(self._in)
                self._is_writing = False
            self._in = -1
            self._pipes[0].close()

    def _step(self, waits: bool = True) -> bool:
        """Reads and writes the pipes that are ready, where it is to wait once one is; whether one was."""
        ready = self._poll.poll(None if waits else 0)
        for pipe, _ in ready:
            if pipe == self._in:
                self._write()
            else:
                self._read(pipe)
        return bool(ready)

    def _read(self, pipe: int) -> None:
        try:
            data = os.read(pipe, _CHUNK)
        except BlockingIOError:
            return
        if not data:
            self._poll.unregister(pipe)
            self._open.discard(pipe)
        elif pipe == self._out:
            self._got += data
        else:
            self._take_errors(data)

    def _take_errors(self, data: bytes) -> None:
        """Keeps the program's own lines, and shows those of a launcher that builds the program."""
        *lines, rest = (self._errors + data).split(b"\n")
        for line in lines:
            if not line.startswith(b"backsim: "):
                print(line.decode("utf-8", "replace"), file=sys.stderr, flush=True)
        self._errors = b"".join(line + b"\n" for line in lines if line.startswith(b"backsim: ")) + rest

    @property
    def is_behind(self) -> bool:
        """Whether the program has not taken much of what was sent."""
        return len(self._queue) > _MOST_QUEUED

    def _next_texts(self, most: int, waits: bool = True) -> list[bytes]:
        """The bytes of the next replies: those that have come, at most so many, where it is to wait with the first. There is none where
        the output has ended."""
        while not self._whole and self._out in self._open and self._step(waits):
            self._divide()
        texts, self._whole = self._whole[:most], self._whole[most:]
        return texts

    def _divide(self) -> None:
        """Divides what was read into replies, as far as these are whole."""
        if self._searched:
            # of a long reply that has begun only what is new is searched for its end
            found = self._got.find(_END, max(0, self._searched - len(_END)))
            if found < 0:
                self._searched = len(self._got)
                return
            self._whole.append(bytes(self._got[:found + len(_END)]))
            del self._got[:found + len(_END)]
        texts = _REPLIES.findall(self._got)
        rest = b""
        if texts and not texts[-1].endswith(_END if texts[-1].startswith(_LONG) else b"\n"):
            rest = texts.pop()
        self._whole += texts
        self._got = bytearray(rest)
        self._searched = len(rest) if rest.startswith(_LONG) else 0

    def next_reply(self) -> Reply | None:
        """The next reply, or None where the output has ended. A refusal is no reply: it is kept, and the output has ended."""
        for text in self._next_texts(1):
            line = self._count + 1
            self._count += text.count(b"\n")
            return self._reply_of(text, line)
        return None

    def _reply_of(self, text: bytes, line: int = 1) -> Reply | None:
        from ..formats.replies import reply_of
        from ..values import Refusal
        reply = reply_of(text, line)
        if isinstance(reply.answer, Refusal):
            self.refusal, self._refusal_text = reply.answer, text
            return None
        return reply

    def replies_to(self, lines: Sequence[L], usual: Callable[[L, bytes], T | None], other: Callable[[Reply], T],
                   waits: bool = True) -> list[T]:
        """What `usual` makes of the replies to the first of the lines, those that have come; of a reply of which it makes None, `other`
        does. There is none where the output has ended, or none has come and it is not to wait. SessionError, with the program ended,
        in the place of a reply that is one to another line."""
        if self._failure is not None:
            raise self._failure
        if self.refusal is not None:
            return []
        made: list[T] = []
        texts = self._next_texts(len(lines), waits)
        if not texts and waits:
            # where the program ended by its dump it is that of the first of these lines that has one
            self._dump = next((name for name in map(_dump_of, lines) if name), None)
        for line, text in zip(lines, texts):
            one = usual(line, text)
            if one is None:
                try:
                    reply = self._reply_to(line, text)
                except SessionError as error:
                    self.kill()
                    self._failure = error
                    break
                if reply is None:
                    break
                one = other(reply)
            made.append(one)
        if self._failure is not None and not made:
            raise self._failure
        return made

    def _reply_to(self, line: Line | TextLine, text: bytes) -> Reply | None:
        """The reply, where it is one to the line; None of a refusal."""
        from ..formats.replies import first_line, fits, shown
        asked = line.parsed() if isinstance(line, TextLine) else line
        try:
            reply = self._reply_of(text)
        except FormatError as error:
            raise SessionError(f"backsim: to `{shown(asked)}` {error.cause}", 1) from None
        if reply is not None and not fits(asked, reply.answer):
            raise SessionError(f"backsim: `{first_line(reply)}` is no reply to `{shown(asked)}`", 1)
        return reply

    def finish(self) -> int:
        """Ends the script, passes over what is still replied, and waits for the program. Gives its status, 128 and the number of
        the signal where one ended it."""
        self.end_input()
        while self._open:
            self._step()
            self._got.clear()
            self._searched = 0
        self._whole.clear()
        status = self._process.wait()
        self._close_pipes()
        return 128 - status if status < 0 else status

    def interrupt(self) -> None:
        """Ends the program at once, also from another thread; its output ends then."""
        self._process.kill()

    def kill(self) -> None:
        """Ends the program at once, and the conversation with it."""
        self._process.kill()
        self._process.wait()
        self._close_pipes()

    def _close_pipes(self) -> None:
        self._close_input()
        for pipe in self._pipes[1:]:
            pipe.close()
        self._open.clear()

    def error_of(self, status: int) -> SessionError:
        """The exception for the status with which the program ended, or for the reply for which it was ended."""
        if self._failure is not None:
            return self._failure
        said = self._errors.decode("utf-8", "replace").strip().splitlines()
        if self.refusal is not None:
            place = _PLACES.get(self.refusal.file)
            return Refused(self.refusal, "the script" if place is None else self.files[place], self._refusal_text)
        if status in FAULTS:
            word = said[-1].rpartition(": ")[2] if said else ""
            path = self._dump if word == "vcd" else self.files[_PLACES[word]] if word in _PLACES else None
            return Fault(status, word, path, self.files[:3])
        return ended(status, said)


def _dump_of(line: Line | TextLine) -> str:
    """The name of the file of a `vcd` line; '' of another."""
    words = line.words if isinstance(line, TextLine) else str(line).split()
    return words[1] if words[:1] in (("vcd",), ["vcd"]) and len(words) > 1 else ""
