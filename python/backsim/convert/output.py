"""Where a command's text goes: to a file or to standard output, and only when all of it is made."""
from __future__ import annotations

import argparse
import io
import sys
from collections.abc import Iterator
from contextlib import contextmanager
from pathlib import Path
from typing import TextIO

from ..command_line.outputs import write_whole
from ..errors import FormatError, printable, reason_of


def add_output(parser: argparse.ArgumentParser, what: str) -> None:
    """The option `--output FILE` of a command that writes one text."""
    parser.add_argument("--output", "-o", type=Path, metavar="FILE", help=f"the file for {what}; standard output where it is left out")


@contextmanager
def whole_text(path: Path | None) -> Iterator[TextIO]:
    """A stream whose text is written to the file, or to standard output, when the block ends; not where it ends with an error."""
    stream = io.StringIO()
    yield stream
    if path is None:
        sys.stdout.write(stream.getvalue())
        return
    try:
        data = stream.getvalue().encode("latin-1")
    except UnicodeEncodeError as error:
        raise FormatError(path, None, f"it can't be written: {reason_of(error)}") from None
    write_whole(path, data)


def say(note: str) -> None:
    """A line on standard error."""
    print(printable(note), file=sys.stderr)
