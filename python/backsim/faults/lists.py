"""Fault lists in the form of the field: a line `NAME /0` for a stem, `FROM->TO /1` for a branch.

Where TO reads FROM at several pins, the branch is `FROM->TO(1) /1`, with the place of the pin counted from 0. The branch to an output
is `NAME->(output) /0`. Of a line that is slow to rise or to fall `/str` or `/stf` stands there. Blank lines and what follows `#` count
as nothing, but that a list which an interrupted command left is refused."""
from __future__ import annotations

import re
from collections.abc import Iterable
from typing import TextIO

from ..command_line.partial import PARTIAL, refuse_partial
from ..errors import FormatError, type_of_path
from ..formats.text import content_of, lines_of, read_bytes
from .model import OUTPUT, Fault, Lines, Site

_FAULT = re.compile(r" *(\S+?) */([01]|str|stf) *")
_PLACED = re.compile(r"(.+)\(([0-9]{1,2})\)")


def text_of(fault: Fault, lines: Lines) -> str:
    """The fault as a line of a list."""
    site = fault.site
    if site.is_stem:
        return f"{site.source} /{fault.value}"
    is_twice = not site.is_output and lines.netlist.gates[site.reader or ""].pins.count(site.source) > 1
    return f"{site.source}->{site.reader}{f'({site.place})' if is_twice else ''} /{fault.value}"


def read_faults(path: type_of_path, lines: Lines) -> list[Fault]:
    """The faults of a list, each once. FormatError where the file can't be read, a line is no fault, or one of no line of the
    netlist."""
    found: dict[Fault, None] = {}
    for number, line in enumerate(lines_of(read_bytes(path)), 1):
        refuse_partial(line, path, number)
        text = content_of(line).strip(" ")
        if not text:
            continue
        parts = _FAULT.fullmatch(text)
        if parts is None:
            raise FormatError(path, number, f"expected a fault, as `NAME /0` or `FROM->TO /1`, and found `{ascii(text[:60])[1:-1]}`")
        found[Fault(_site_of(parts[1], lines, path, number), parts[2])] = None
    if not found:
        raise FormatError(path, None, "the list has no fault")
    return list(found)


def _site_of(word: str, lines: Lines, path: type_of_path, number: int) -> Site:
    if word in lines.netlist:
        return Site(word)
    # a name may have an arrow in it, so each place is tried
    sites = {site for found in re.finditer("->", word) for site in _branches_of(word[:found.start()], word[found.end():], lines)}
    if len(sites) == 1:
        return sites.pop()
    if sites:
        places = ", ".join(sorted(text_of(Fault(site, "0"), lines)[:-3] for site in sites))
        raise FormatError(path, number, f"`{word}` may be each of {places}: say which")
    what = "branch" if "->" in word else "signal"
    raise FormatError(path, number, f"the netlist has no {what} {ascii(word)[1:-1]}")


def _branches_of(source: str, reader: str, lines: Lines) -> list[Site]:
    """The lines that these words may mean. The one place that reads a signal is reached by its stem, and may be named as a branch."""
    if source not in lines.netlist:
        return []
    own = lines.readers[source]
    if reader == OUTPUT:
        found = [site for site in own if site.is_output]
    else:
        placed = _PLACED.fullmatch(reader)
        name, place = (placed[1], int(placed[2])) if placed else (reader, None)
        found = [site for site in own if site.reader == name and place in (None, site.place)]
    return [site if len(own) > 1 else Site(source) for site in found]


def write_faults(faults: Iterable[Fault], lines: Lines, stream: TextIO, is_partial: bool = False) -> None:
    """Writes a list, a line for each fault."""
    if is_partial:
        stream.write(f"{PARTIAL}\n")
    stream.writelines(f"{text_of(fault, lines)}\n" for fault in faults)
