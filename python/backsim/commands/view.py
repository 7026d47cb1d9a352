"""A page of waves in the browser, for a live session."""
from __future__ import annotations

import argparse
import os
import re
import signal
import sys
import threading
import webbrowser
from collections.abc import Iterator
from contextlib import contextmanager
from pathlib import Path
from types import FrameType

from ..command_line.arguments import add_memo, add_program, count_of, moment, unit_of_session
from ..errors import UsageError, WordsError, reason_of
from ..formats.text import read_bytes
from ..formats.units import units_until
from ..limits import MOST_SHARDS
from ..view.asker import Asker, Opening
from ..view.documents import Document, begun, read_document
from ..view.index import Index
from ..view.server import Pages

HELP = "a page of waves in the browser, worked out as one looks: zoom, search, causes, faults"
EXAMPLE = """\
  backsim-tools view examples/from_verilog/from_verilog.bench examples/from_verilog/from_verilog.timing \\
      examples/from_verilog/from_verilog.stim
  backsim-tools view examples/s27/s27.bench examples/s27/s27.timing examples/s27/s27.stim G17 'G1?' --from 0 --to 31
  backsim-tools view saved.view

It prints the page's address, and opens it where there is a screen. Only this machine is answered, and only who has the address. The page
asks for what is in view, and nothing else is evaluated. ? in the page lists its keys. Ctrl-C ends the session; closing the page does
not. From another machine: ssh -L 8000:127.0.0.1:8000 HOST, there with --port 8000."""
_FIRST_ROWS = 10
_LONG_WINDOW, _PERIODS = 200, 20
_CLOCK = re.compile(rb"(?m)^[ \t]*clock(?:[ \t]+[^\s#]+)?[ \t]+([0-9]+)[ \t]+([0-9]+)[ \t\r]*(?:#.*)?$")


def add_arguments(parser: argparse.ArgumentParser) -> None:
    parser.usage = ("backsim-tools view NETLIST TIMING STIMULUS [NAME ...] [--from T] [--to T] [--port N] [--no-browser]\n"
                    "       backsim-tools view FILE [--port N] [--no-browser]")
    parser.add_argument("words", nargs="+", metavar="FILE",
                        help="netlist, timing file and stimulus, and the signals, patterns and buses to show; or a saved view alone")
    parser.add_argument("--from", dest="start", type=moment, metavar="T", help="the first time in view, in units, or such as 15ns where "
                        "the files state the unit; 0 where it is left out")
    parser.add_argument("--to", dest="stop", type=moment, metavar="T", help="the time before which the view ends; where it is left out 20 periods "
                        "of the fastest clock after T, or 200 units")
    parser.add_argument("--port", type=count_of(0, 65_535), default=0, metavar="N", help="the port, one of the system's choice if left out")
    parser.add_argument("--no-browser", action="store_true", help="print the address alone")
    add_program(parser)
    add_memo(parser)


def run(arguments: argparse.Namespace) -> int:
    files, document = _saved(arguments) if len(arguments.words) == 1 else (arguments.words[:3], None)
    if len(files) != 3:
        raise WordsError("say NETLIST TIMING STIMULUS, or the file of a saved view")
    # the page is answered soon also while names are read
    sys.setswitchinterval(0.001)
    with _ended_by_signals():
        pages = _pages(arguments, (files[0], files[1], files[2]), document)
        try:
            _tell(pages, arguments.no_browser)
            pages.serve_forever()
        except KeyboardInterrupt:
            return 0
        finally:
            pages.server_close()
            pages.asker.end()
    return 0


def _saved(arguments: argparse.Namespace) -> tuple[list[str], Document]:
    if arguments.start is not None or arguments.stop is not None:
        raise WordsError("a saved view has its own window: leave --from and --to out")
    return read_document(Path(arguments.words[0]))


def _pages(arguments: argparse.Namespace, files: tuple[str, str, str], document: Document | None) -> Pages:
    """The server of a session over the files, which goes on while names are found."""
    options = {"workers": arguments.workers, "shards": arguments.shards or MOST_SHARDS, "cells": arguments.cells, "program": arguments.program}
    asker = Asker(Opening(files, options))
    try:
        index = Index(files[0], asker.is_busy)
        if document is None:
            document = _document(arguments, index, asker.horizon)
        pages = Pages(asker, index, files, document, arguments.port)
    except OSError as error:
        asker.end()
        raise UsageError(f"127.0.0.1:{arguments.port}: {reason_of(error)}") from None
    except BaseException:
        asker.end()
        raise
    asker.start()
    pages.begin_asking()
    return pages


def _document(arguments: argparse.Namespace, index: Index, horizon: int) -> Document:
    """The view that the words ask for."""
    unit = unit_of_session(arguments.words[1], arguments.words[2])
    start = units_until(arguments.start or 0, unit, horizon)
    stop = min(horizon + 1, start + _usual_length(arguments.words[1])) if arguments.stop is None else units_until(arguments.stop, unit, horizon, beyond=1)
    if not 0 <= start < stop <= horizon + 1:
        raise UsageError(f"{arguments.words[2]}: a window from {start} to {stop} is none; times are from 0 to {horizon}")
    names = arguments.words[3:]
    return begun(list(_named(index, names)) if names else index.first(_FIRST_ROWS), start, stop)


def _named(index: Index, names: list[str]) -> Iterator[str]:
    """The names, with the signals and buses of a pattern in its place, and the range of a bus that is named without it. UsageError where
    there is no such signal."""
    for name in names:
        if not set(name) & set("*?"):
            name = index.full(name)
            index.bits(name)
            yield name
            continue
        found, _ = index.find(name, _FIRST_ROWS * 100)
        if not found:
            raise WordsError(f"no signal is of the pattern {name}")
        yield from (one.name for one in found)


def _usual_length(timing: str) -> int:
    """How many times the first view has: some periods of the fastest clock, or as many as show something of a circuit without one."""
    periods = [int(period) for _, period in _CLOCK.findall(read_bytes(timing))]
    return max(_LONG_WINDOW, _PERIODS * min(periods, default=0))


def _tell(pages: Pages, is_quiet: bool) -> None:
    """Says where the page is, and opens it where there is a screen to show it on."""
    print(pages.address, flush=True)
    has_screen = sys.platform == "darwin" or any(os.environ.get(name) for name in ("DISPLAY", "WAYLAND_DISPLAY"))
    if not is_quiet and has_screen:
        threading.Thread(target=webbrowser.open, args=(pages.address,), daemon=True).start()
    if sys.stdout.isatty():
        print("Ctrl-C ends the session; the page may be closed and opened again.", flush=True)


@contextmanager
def _ended_by_signals() -> Iterator[None]:
    """Has the signals by which terminals and services end a command end it as Ctrl-C does, with all that it has begun; those that follow are
    passed over meanwhile."""
    def end(number: int, frame: FrameType | None) -> None:
        for one in before:
            signal.signal(one, signal.SIG_IGN)
        raise KeyboardInterrupt

    before = {number: signal.signal(number, end) for number in (signal.SIGTERM, signal.SIGHUP)}
    try:
        yield
    finally:
        for number, handler in before.items():
            signal.signal(number, handler)
