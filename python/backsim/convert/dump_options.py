"""The options of commands that read a dump: what a unit of it is, and a window."""
from __future__ import annotations

import argparse

from ..command_line.arguments import count_of, unit_word
from ..formats.units import Unit
from .dump import Span

MOST_TICKS = 10 ** 15


def add_unit(parser: argparse.ArgumentParser) -> None:
    """Adds the options --ticks and --unit, which say what a unit of a dump is."""
    units = parser.add_mutually_exclusive_group()
    units.add_argument("--ticks", type=count_of(1, MOST_TICKS), metavar="N", help="how many ticks of the dump are a unit of time, 1 "
                       "where it is left out")
    units.add_argument("--unit", type=unit_word, metavar="TIME", help="how long a unit is, in place of --ticks, as 10ps; a multiple of the "
                       "dump's tick, or a divisor")


def span_of(arguments: argparse.Namespace, known: Unit | None = None) -> Span:
    """What these options, and those of `add_window`, say. Where neither --ticks nor --unit is given, a unit is what is known already."""
    unit = arguments.unit or (known if arguments.ticks is None else None)
    return Span(arguments.ticks or 1, unit, getattr(arguments, "start", 0), getattr(arguments, "stop", None))


def add_window(parser: argparse.ArgumentParser) -> None:
    """Adds the options --from and --to, a window of a dump."""
    parser.add_argument("--from", dest="start", default="0", metavar="T", help="the time of the dump at which the window begins, in units, or as 3ms")
    parser.add_argument("--to", dest="stop", metavar="T", help="the last time of the window; the dump's end where it is left out")
