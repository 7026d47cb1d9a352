"""The errors of the package. Each has a text of one line and the status with which a command ends."""
from __future__ import annotations

import os
import re
from typing import Union

type_of_path = Union[str, "os.PathLike[str]"]


_CONTROL = re.compile("[\x00-\x1f\x7f-\x9f\u2028\u2029]")


def printable(text: str) -> str:
    """The text in one line, with what would steer a terminal written as an escape, as `\\x1b`."""
    return _CONTROL.sub(lambda found: ascii(found[0])[1:-1], text)


class BacksimError(Exception):
    """Something that the user can mend. `str(error)` is one line, with control characters as escapes; `status` is the exit status of a
    command that meets it."""

    status = 2

    def __str__(self) -> str:
        return printable(super().__str__())


class UsageError(BacksimError, ValueError):
    """Words or arguments that do not fit one another."""


class WordsError(UsageError):
    """Words of a command that do not fit one another, where no file is to be named. `main` puts the command before the text."""


class NoValue(BacksimError, AttributeError, TypeError):
    """An answer that says why there is no value was taken for one that has a value. `name` is what was wanted of it."""

    def __init__(self, text: str, name: str) -> None:
        super().__init__(text)
        self.name = name


class MissingExtra(BacksimError):
    """A package or a program that an optional part needs is not installed.

    `needed` names it, `extra` is the extra of the package (`pictures`, `bars`, `graphs`, `numbers`, `tests`) and `debian` Debian's package."""

    def __init__(self, needed: str, extra: str, debian: str) -> None:
        super().__init__(f"{needed} is not there: install Debian's package {debian}, or `pip install 'backsim[{extra}]'`")


class FormatError(BacksimError):
    """A file that can't be read, or is not of its format.

    `path` names the file, `line` is the line at fault counted from 1 (None where no line is), and `cause` says in words what is
    wrong. The text is `PATH:LINE: CAUSE`, or `PATH: CAUSE`."""

    def __init__(self, path: type_of_path, line: int | None, cause: str) -> None:
        self.path = os.fspath(path)
        self.line = line or None
        self.cause = cause
        place = self.path if self.line is None else f"{self.path}:{self.line}"
        super().__init__(f"{place}: {cause}")


def reason_of(error: OSError | ValueError) -> str:
    """What the system says of a file that it does not give, in one line without the file's name."""
    if isinstance(error, OSError) and error.strerror:
        return error.strerror
    return str(error) or type(error).__name__
