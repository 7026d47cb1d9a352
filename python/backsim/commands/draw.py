"""Draws waves as a timing diagram."""
from __future__ import annotations

import argparse
from pathlib import Path

from ..command_line.arguments import moment, unit_of_session
from ..command_line.outputs import check_places
from ..errors import WordsError
from ..formats.netlist import ascending_in
from ..formats.stimulus import read_horizon
from ..formats.text import read_bytes
from ..formats.units import Unit, units_of, units_until
from ..formats.vcd import Selection, read_vcd
from ..pictures.figures import FORMS
from ..pictures.files import form_of, write_picture
from ..pictures.rows import RADIXES, with_buses
from ..pictures.sources import chosen, rows_of_replies, rows_of_session, rows_of_vcd
from ..pictures.waves import waves_picture

HELP = "a timing diagram (SVG or PNG) of replies, of a VCD file, or of a session that it asks"
EXAMPLE = """\
  backsim-tools draw --replies examples/pulse/pulse.replies -o pulse.svg
  backsim-tools draw --vcd examples/pulse/pulse.vcd --scope top pulse parity -o pulse.png
  backsim-tools draw examples/s27/s27.bench examples/s27/s27.timing examples/s27/s27.stim G17 'G1?' --from 0 --to 31 -o s27.svg

A NAME may be a pattern, with * for any letters and ? for one, or a bus, as 'count[7:0]'. Of a session FROM is 0 and TO is after the
horizon where they are left out. x is a hatched band, z a dashed middle line; where nothing was asked the row is dotted."""


def add_arguments(parser: argparse.ArgumentParser) -> None:
    parser.usage = ("backsim-tools draw (--replies FILE | --vcd FILE [--scope SCOPE]) [NAME ...] -o FILE\n"
                    "       backsim-tools draw NETLIST TIMING STIMULUS NAME [NAME ...] [--from T] [--to T] -o FILE")
    parser.add_argument("words", nargs="*", metavar="NAME", help="the signals to draw, from top to bottom; all where none is named")
    source = parser.add_mutually_exclusive_group()
    source.add_argument("--replies", type=Path, metavar="FILE", help="draw the `wave`, `at` and `stuck` replies of this file")
    source.add_argument("--vcd", type=Path, metavar="FILE", help="draw the waves of this dump")
    parser.add_argument("--scope", metavar="SCOPE",
                        help="the scope of the dump, as top.dut; that of the first variable where it is left out")
    parser.add_argument("--from", dest="start", type=moment, metavar="T", help="the first time, in units, or such as 15ns where "
                        "the files state the unit")
    parser.add_argument("--to", dest="stop", type=moment, metavar="T", help="the time before which the diagram ends, in units, or such as 15ns")
    parser.add_argument("--budget", type=int, metavar="N", help="how many points a session may evaluate for each wave, 50,000 where "
                        "it is left out, 500,000 at most")
    parser.add_argument("--radix", choices=RADIXES, default="hex", help="how values of buses are written, hex where it is left out; signed "
                        "is decimal in two's complement")
    parser.add_argument("--bits", action="store_true", help="draw the bits of a bus in rows of their own where no bus is named")
    parser.add_argument("--mark", type=moment, action="append", default=[], metavar="T", help="a vertical line at this time; may be repeated")
    parser.add_argument("--title", default="", metavar="TEXT", help="what stands above the diagram; nothing where it is left out")
    parser.add_argument("--output", "-o", type=Path, required=True, metavar="FILE", help="the picture, .svg or .png")


def run(arguments: argparse.Namespace) -> int:
    form = form_of(arguments.output, FORMS)
    check_places(arguments.output, read=(arguments.replies, arguments.vcd))
    if arguments.scope and not arguments.vcd:
        raise WordsError("--scope goes with --vcd")
    names = arguments.words
    unit = _unit_of(arguments, names)
    start, stop = _window(arguments, names, unit)
    marks = [units_of(mark, unit) for mark in arguments.mark]
    ascending: dict[str, str] = {}
    if arguments.replies:
        rows = chosen(rows_of_replies(arguments.replies), names, arguments.replies)
    elif arguments.vcd:
        rows = rows_of_vcd(arguments.vcd, arguments.scope, names)
    else:
        if len(names) < 4:
            raise WordsError("say NETLIST TIMING STIMULUS and the names of the signals, or --replies FILE, or --vcd FILE")
        rows = rows_of_session(names[:3], names[3:], start, stop, arguments.budget)
        ascending = ascending_in(read_bytes(names[0]))
    if not arguments.bits:
        rows = with_buses(rows, ascending)
    picture = waves_picture(rows, form, start=start, stop=stop, radix=arguments.radix, marks=marks, title=arguments.title,
                            unit=str(unit) if unit else "")
    write_picture(arguments.output, picture)
    return 0


def _window(arguments: argparse.Namespace, names: list[str], unit: Unit | None) -> list[int | None]:
    """What --from and --to say, in units. UsageError where they are in seconds and after the horizon of a session's stimulus."""
    times = arguments.start, arguments.stop
    if arguments.replies or arguments.vcd or len(names) < 4:
        return [time if time is None else units_of(time, unit) for time in times]
    horizon = read_horizon(names[2])
    return [time if time is None else units_until(time, unit, horizon, beyond=beyond) for beyond, time in enumerate(times)]


def _unit_of(arguments: argparse.Namespace, names: list[str]) -> Unit | None:
    """The unit of what is drawn: a tick of the dump, or what the files of a session state; None where it is not known. A pipe, which
    can be read once, is looked at only where a time is said in seconds."""
    if arguments.vcd:
        if not arguments.vcd.is_file() and not any(isinstance(time, str) for time in (arguments.start, arguments.stop, *arguments.mark)):
            return None
        vcd = read_vcd(arguments.vcd, lambda header: Selection(set(), 0, 0))
        return Unit(vcd.ticks, vcd.unit)
    return unit_of_session(names[1], names[2]) if not arguments.replies and len(names) > 2 else None
