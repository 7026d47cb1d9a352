"""The rules that the text files share: lines, comments, words, names and numbers (docs/use/FORMATS.md, Common rules)."""
from __future__ import annotations

import codecs
import re
from collections.abc import Callable, Iterator
from contextlib import contextmanager
from typing import BinaryIO, NamedTuple, TypeVar

from ..errors import FormatError, reason_of, type_of_path
from ..limits import FILE_LIMIT
from .marks import MARK, has_mark

# from ! to ~, without ( ) , = and #
NAME = re.compile(r"[!\"$-'*+\--<>-~]+")
DIGITS = re.compile(r"[0-9]+")
T = TypeVar("T")
N = TypeVar("N")
_BLANKS = bytes.maketrans(b"\t\r", b"  ")


class Row(NamedTuple):
    """A line that isn't blank: its number, counted from 1, and its words without the comment."""

    number: int
    words: tuple[str, ...]


@contextmanager
def opened(path: type_of_path) -> Iterator[BinaryIO]:
    """The file, open for reading. FormatError where it can't be opened, or read."""
    try:
        with open(path, "rb") as file:
            yield file
    except (OSError, ValueError) as error:
        raise FormatError(path, None, reason_of(error)) from None


def read_bytes(path: type_of_path, limit: int = FILE_LIMIT) -> bytes:
    """The file's bytes. FormatError where it can't be read, or has more than `limit` bytes."""
    with opened(path) as file:
        data = file.read(limit + 1)
    if len(data) > limit:
        raise FormatError(path, None, f"the file has more than {limit} bytes")
    return data


def read_foreign(path: type_of_path) -> bytes:
    """The bytes of a file of another program, without the byte order mark that it may begin with. FormatError as of `read_bytes`."""
    return read_bytes(path).removeprefix(codecs.BOM_UTF8)


def check_mark(data: bytes, path: type_of_path) -> None:
    """FormatError where bytes of a file that the simulator reads begin with a byte order mark, which it refuses as a bad line 1."""
    if has_mark(data):
        raise FormatError(path, 1, MARK)


def read_for(netlist: N | None, path: type_of_path, parse: Callable[[bytes, str], T], check: Callable[[T, N, str], None]) -> T:
    """What `parse` makes of the bytes of a file, where `check` lets it stand for the netlist; it is not asked where there is none."""
    data = read_bytes(path)
    check_mark(data, path)
    made = parse(data, str(path))
    if netlist is not None:
        check(made, netlist, str(path))
    return made


def lines_of(data: bytes) -> list[bytes]:
    """The lines without their line feeds. Bytes after the last line feed are a line too, unless there are none."""
    lines = data.split(b"\n")
    return lines if lines[-1] else lines[:-1]


def content_of(line: bytes) -> str:
    """The line without its comment, with each byte as one character and each blank as a space."""
    return line.partition(b"#")[0].translate(_BLANKS).decode("latin-1")


def words_of(line: bytes) -> tuple[str, ...]:
    """The words of a line, without its comment."""
    return tuple(word for word in content_of(line).split(" ") if word)


def rows_of(data: bytes) -> Iterator[Row]:
    """The lines that aren't blank."""
    for number, line in enumerate(lines_of(data), 1):
        words = words_of(line)
        if words:
            yield Row(number, words)


# what a person is told of a name that is none
RULE_OF_NAMES = "it may have no blank and none of (, ), comma, = and #, and no letter outside ASCII"


def is_name(word: str) -> bool:
    """Whether the word is a name: bytes from 33 to 126 that are none of `(`, `)`, `,`, `=` and `#`."""
    return NAME.fullmatch(word) is not None


def number_of(word: str) -> int | None:
    """The number that the word is, or None. A number of more than 18 digits is told as the 10 ** 18 that is above every limit."""
    if not DIGITS.fullmatch(word):
        return None
    digits = word.lstrip("0")
    return 10 ** 18 if len(digits) > 18 else int(digits or "0")


def logic_of(word: str) -> str | None:
    """The logic value that the word is, in lower case, or None."""
    return word.lower() if word in ("0", "1", "x", "X", "z", "Z") else None
