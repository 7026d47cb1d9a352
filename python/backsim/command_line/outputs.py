"""Files that come whole or not at all.

What is written stands beside its place first, under a name of its own, and is renamed when all of it is there. So whatever ends the
writing, a full disk or a signal, leaves what stood there before."""
from __future__ import annotations

import errno
import os
import shutil
import stat
from collections.abc import Iterable, Iterator
from contextlib import contextmanager
from pathlib import Path

from ..errors import FormatError, reason_of, type_of_path


def write_whole(path: type_of_path, data: bytes) -> None:
    """Writes a file whole. What is no regular file, as a pipe or /dev/null, is written to where it stands. FormatError where it can't be
    written; the file is as it was then."""
    try:
        mode = _mode_of(path)
        if mode is not None and not stat.S_ISREG(mode):
            # by its own name: of /dev/stdout that is a pipe the link leads to no name
            with open(path, "wb") as stream:
                stream.write(data)
        else:
            # a link stays one: what it leads to is renamed over
            _replace(os.path.realpath(path), data, mode)
    except (OSError, ValueError) as error:
        raise FormatError(path, None, f"it can't be written: {reason_of(error)}") from None


def check_places(*paths: type_of_path | None, read: Iterable[type_of_path | None] = ()) -> None:
    """FormatError where one of these files can't be written, is one of those that the command reads, or is another of them, before a
    command works. Nothing is left there."""
    places: set[str] = set()
    sources = {_identity(path) for path in read if path is not None} - {None}
    for path in paths:
        if path is None:
            continue
        try:
            mode = _mode_of(path)
            if mode is None or stat.S_ISREG(mode):
                if _identity(path) in sources:
                    raise FormatError(path, None, "the command reads this file, so it is not written over")
                place = os.path.realpath(path)
                if place in places:
                    raise FormatError(path, None, "two of the files that the command is told to write are this one")
                places.add(place)
                _check_place(place, mode)
            elif stat.S_ISDIR(mode):
                raise IsADirectoryError(errno.EISDIR, os.strerror(errno.EISDIR))
        except (OSError, ValueError) as error:
            raise FormatError(path, None, f"it can't be written: {reason_of(error)}") from None


def _check_place(place: str, mode: int | None) -> None:
    """Tries whether a file can be made beside the place."""
    _check_mode(place, mode)
    beside = _beside(place)
    try:
        open(beside, "xb").close()
    finally:
        if os.path.exists(beside):
            os.unlink(beside)


def _check_mode(place: str, mode: int | None) -> None:
    if mode is not None and not os.access(place, os.W_OK):
        raise PermissionError(0, "the file may not be written")


def _identity(path: type_of_path) -> tuple[int, int] | None:
    try:
        known = os.stat(path)
    except (OSError, ValueError):
        return None
    return known.st_dev, known.st_ino


def _mode_of(path: type_of_path) -> int | None:
    try:
        return os.stat(path).st_mode
    except FileNotFoundError:
        return None


def _replace(place: str, data: bytes, mode: int | None) -> None:
    """Makes the file anew; `mode` is that of the file that stands there, whose permissions the new one has."""
    _check_mode(place, mode)
    beside = _beside(place)
    try:
        with open(beside, "xb") as stream:
            if mode is not None:
                os.fchmod(stream.fileno(), stat.S_IMODE(mode))
            stream.write(data)
        os.replace(beside, place)
    except BaseException:
        try:
            os.unlink(beside)
        except OSError:
            pass
        raise


@contextmanager
def whole_folder(path: type_of_path) -> Iterator[Path]:
    """A new folder, which has its name when the block ends, with all that was put into it; where the block ends with an error there is
    none. FormatError where something of this name is there already, or the folder can't be made."""
    place = os.fspath(path).rstrip("/") or "/"
    try:
        if os.path.lexists(place):
            raise FormatError(path, None, "it is there already")
        os.makedirs(os.path.dirname(place) or ".", exist_ok=True)
        beside = Path(_beside(place))
        beside.mkdir()
    except (OSError, ValueError) as error:
        raise FormatError(path, None, reason_of(error)) from None
    try:
        yield beside
        os.rename(beside, place)
    except BaseException as error:
        shutil.rmtree(beside, ignore_errors=True)
        if isinstance(error, OSError):
            raise FormatError(path, None, reason_of(error)) from None
        raise


def _beside(place: str) -> str:
    """A name in the folder of the place that no other process takes."""
    folder, name = os.path.split(place)
    return os.path.join(folder, f".{name[:100]}.{os.getpid()}.new")
