"""`backsim-tools names`: names in place of the numbers of signals."""
from __future__ import annotations

import argparse
import sys
from collections.abc import Iterable, Iterator, Sequence

from ..circuit.buses import matching, signals_of
from ..command_line.arguments import lines_of_file
from ..errors import FormatError, UsageError, WordsError
from ..formats.journal import ENTRY_TYPES
from ..formats.netlist import read_netlist

HELP = "writes a journal, or replies with proofs, with names in place of the signals' numbers; or lists the signals of a name"
EXAMPLE = """  backsim-tools names c17.bench journal
  backsim-tools names chip.bench --list 'u1.*' count"""
# of the signal among the words of an entry, or of a proof's line
_PLACES = {"told": 2, "claim": 2, "fill": 2, "evict": 1, "drop": 2, "spent": 2, "cell": 1}
_COUNTS = {word: count + 1 for word, (_, count) in ENTRY_TYPES.items()} | {"cell": 5}


def add_arguments(parser: argparse.ArgumentParser) -> None:
    parser.add_argument("netlist", metavar="NETLIST")
    parser.add_argument("file", metavar="FILE", nargs="?", default="-", help="the journal, replies or proof; standard input where left out")
    parser.add_argument("--list", nargs="+", metavar="NAME", help="writes, in place of a file with names, the signals that these names stand "
                        "for, a line each: a signal, a bus, with its range or without it, or a pattern, with * for any letters and ? for one")


def run(arguments: argparse.Namespace) -> int:
    names = read_netlist(arguments.netlist).names
    if arguments.list:
        if arguments.file != "-":
            raise WordsError("say a FILE or --list, and not both")
        sys.stdout.writelines(f"{name}\n" for name in listed(arguments.list, names, arguments.netlist))
        return 0
    sys.stdout.writelines(named(lines_of_file(arguments.file), names, arguments.file))
    return 0


def listed(wanted: Iterable[str], names: Sequence[str], path: str) -> list[str]:
    """The signals that names of signals, buses and patterns stand for, each once. UsageError where one stands for none."""
    known = set(names)
    found: dict[str, None] = {}
    for name in wanted:
        try:
            signals = signals_of(name, known) or matching(name, names)
        except UsageError as error:
            raise UsageError(f"{path}: {error}") from None
        if not signals:
            raise UsageError(f"{path}: no signal, bus or pattern is {name}")
        found.update(dict.fromkeys(signals))
    return list(found)


def named(lines: Iterable[bytes], names: Sequence[str], path: str) -> Iterator[str]:
    """The lines, with the name of the signal in each entry of a journal and each cell of a proof; every other line as it is."""
    for number, line in enumerate(lines, 1):
        try:
            text = line.decode("ascii")
        except UnicodeDecodeError:
            raise FormatError(path, number, "expected a line of a journal or of replies, and found bytes that are no text") from None
        words = text.split()
        place = _PLACES.get(words[0]) if words else None
        if place is None:
            yield text
            continue
        word = words[place] if len(words) == _COUNTS[words[0]] else ""
        if not word.isdigit() or len(word) > 10 or int(word) >= len(names):
            raise FormatError(path, number, f"`{text.strip()[:60]}` names no signal of the netlist, which has {len(names)}")
        words[place] = names[int(word)]
        yield " ".join(words) + "\n"
