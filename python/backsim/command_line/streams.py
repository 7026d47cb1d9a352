"""The standard streams of a command: closed ones are filled, and no control character of a file or a name reaches a terminal."""
from __future__ import annotations

import io
import os
import re
import sys
from typing import Any, TextIO

# controls other than tab and line feed, and those of ISO 6429 as UTF-8 has them
_CONTROL = re.compile(rb"[\x00-\x08\x0b-\x1f\x7f]|\xc2[\x80-\x9f]")


def plain(data: bytes) -> bytes:
    """The bytes with control characters spelled as `\\x1b`."""
    return _CONTROL.sub(lambda found: b"".join(b"\\x%02x" % byte for byte in found[0][-1:]), data)


class _Plain(io.RawIOBase):
    """Writes to another stream without control characters. A carriage return at the beginning stays: it is that of a bar. Where `drops`
    is true, what can't be written is passed over."""

    def __init__(self, stream: TextIO, drops: bool) -> None:
        self._stream, self._drops = stream, drops

    def writable(self) -> bool:
        return True

    def fileno(self) -> int:
        return self._stream.fileno()

    def isatty(self) -> bool:
        return self._stream.isatty()

    def write(self, data: Any) -> int:
        given = bytes(data)
        head = given[:1] if given[:1] == b"\r" else b""
        try:
            self._stream.buffer.write(head + plain(given[len(head):]))
            self._stream.buffer.flush()
        except OSError:
            if not self._drops:
                raise
        return len(given)


def _plain_text(stream: TextIO, drops: bool = False) -> TextIO:
    """Each text is written at once, so that a bar is seen and what two streams say keeps its order."""
    return io.TextIOWrapper(io.BufferedWriter(_Plain(stream, drops)), encoding=stream.encoding, errors="backslashreplace", newline="",
                            line_buffering=True, write_through=True)


def prepare() -> None:
    """Makes the three streams fit for a command. A closed descriptor is filled, so that no file gets its number; what is read from or
    written to it fails then."""
    for number, mode in ((0, os.O_WRONLY), (1, os.O_RDONLY), (2, os.O_RDWR)):
        try:
            os.fstat(number)
        except OSError:
            os.open(os.devnull, mode)
    sys.stdin = sys.stdin or open(0, encoding="utf-8", closefd=False)
    sys.stdout = sys.stdout or open(1, "w", encoding="utf-8", closefd=False)
    sys.stderr = sys.stderr or open(2, "w", encoding="utf-8", closefd=False)
    if sys.stdout.isatty():
        sys.stdout = _plain_text(sys.stdout)
    # what is said is for people, who may see it through a pipe; where nobody can be told, the status tells
    sys.stderr = _plain_text(sys.stderr, drops=True)


def leave_output() -> None:
    """Puts standard output where what is left to be written goes nowhere."""
    nowhere = os.open(os.devnull, os.O_WRONLY)
    os.dup2(nowhere, sys.stdout.fileno())
    os.close(nowhere)
