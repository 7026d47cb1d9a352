"""What commands share in their words: numbers within limits, and the files of a session."""
from __future__ import annotations

import argparse
import os
import sys
from collections.abc import Callable, Iterator
from contextlib import contextmanager
from typing import TYPE_CHECKING, BinaryIO

from ..errors import FormatError, UsageError, WordsError, reason_of
from ..formats.text import number_of
from ..limits import MOST_CELLS, MOST_SHARDS, MOST_WORKERS

if TYPE_CHECKING:
    from ..formats.units import Moment, Unit


def count_of(least: int, most: int) -> Callable[[str], int]:
    """A type of an argument: a whole number of this range."""

    def count(word: str) -> int:
        number = number_of(word)
        if number is None or not least <= number <= most:
            raise argparse.ArgumentTypeError(f"a whole number from {least} to {most} is wanted, and not {word}")
        return number

    return count


def unit_word(word: str) -> Unit:
    """A type of an argument: a unit of time, as `10ps`."""
    from ..formats.units import unit_of  # `run` begins without it
    unit = unit_of(word)
    if unit is None:
        raise argparse.ArgumentTypeError(f"a unit of time is wanted, a whole number of s, ms, us, ns, ps or fs as 10ps, and not {word}")
    return unit


def moment(word: str) -> Moment:
    """A type of an argument: a time in units, or such as `15ns`."""
    from ..formats.units import is_time
    if word.lstrip("-").isdigit():
        return int(word)
    if not is_time(word):
        raise argparse.ArgumentTypeError(f"a time is wanted, a number of units or one of s, ms, us, ns, ps or fs as 15ns, and not {word}")
    return word


def moment_of(least: int, most: int) -> Callable[[str], Moment]:
    """A type of an argument: a time of this range in units, or one such as `15ns`, of which `in_units` looks at the range."""

    def own(word: str) -> Moment:
        return moment(word) if not word.isdigit() else count_of(least, most)(word)

    return own


def in_units(time: Moment, unit: Unit | None, option: str, least: int, most: int) -> int:
    """What an option says, in units. WordsError where it is a time such as `15ns` that is between two units or out of the range, or the unit is
    not known."""
    from ..formats.units import units_of
    try:
        units = units_of(time, unit)
    except UsageError as error:
        raise WordsError(f"{option}: {error}") from None
    if not least <= units <= most:
        raise WordsError(f"{option} {time} is {units} units, and from {least} to {most} are wanted")
    return units


def unit_of_session(timing: str | os.PathLike[str], stimulus: str | os.PathLike[str]) -> Unit | None:
    """The unit of time that the files of a session state."""
    from ..formats.units import unit_of_file
    return unit_of_file(timing) or unit_of_file(stimulus)


def add_files(parser: argparse.ArgumentParser) -> None:
    """Adds the arguments NETLIST, TIMING and STIMULUS."""
    for name in ("netlist", "timing", "stimulus"):
        parser.add_argument(name, metavar=name.upper())


def add_program(parser: argparse.ArgumentParser) -> None:
    """Adds the option --program."""
    parser.add_argument("--program", metavar="FILE", help="the program, in place of $BACKSIM, the launcher, the one that was installed with the "
                        "package, or backsim on PATH")


def add_memo(parser: argparse.ArgumentParser) -> None:
    """Adds the options --workers, --shards and --cells."""
    parser.add_argument("--workers", metavar="N", type=count_of(1, MOST_WORKERS), help="of each process: 1 where there are several, else 4")
    parser.add_argument("--shards", metavar="N", type=count_of(1, MOST_SHARDS), help="of each process, 8 where it is left out")
    parser.add_argument("--cells", metavar="N", type=count_of(1, MOST_CELLS), default=MOST_CELLS,
                        help=f"of each shard, {MOST_CELLS} where it is left out; each takes some 100 bytes once it comes")


@contextmanager
def opened(path: str) -> Iterator[BinaryIO]:
    """The file to read, standard input for `-`. FormatError where it can't be opened, or read."""
    try:
        if path == "-":
            yield sys.stdin.buffer
            return
        with open(path, "rb") as stream:
            yield stream
    except (OSError, ValueError) as error:
        raise FormatError("standard input" if path == "-" else path, None, reason_of(error)) from None


def lines_of_file(path: str) -> Iterator[bytes]:
    """The lines of the file, or of standard input for `-`. FormatError as of `opened`."""
    with opened(path) as stream:
        yield from stream
