"""`backsim-tools journal`: judges a journal, or tells where its evaluations went."""
from __future__ import annotations

import argparse
from pathlib import Path

from ..formats.journal import read_events
from ..journal import profile_text
from ..journal.legality import judge

HELP = "judges whether a journal is legal, or tells where its evaluations went"
EXAMPLE = """\
  backsim-tools journal journal
  backsim-tools journal journal --profile --netlist c17.bench"""


def add_arguments(parser: argparse.ArgumentParser) -> None:
    parser.description = ("Judges a journal by the table of legal entries alone, knowing nothing of the circuit: whether a point is "
                          "needed, and whether a cell is the one of forward simulation, is not judged. Status 1 and the first line that is "
                          "not legal, with the reason, where it is not. With --profile it is told which questions and signals the "
                          "evaluations were for, when cells were evicted, and which budgets, --shards and --cells would do.")
    parser.add_argument("journal", metavar="JOURNAL")
    profile_text.add_arguments(parser)


def run(arguments: argparse.Namespace) -> int:
    if arguments.profile:
        return profile_text.run(Path(arguments.journal), arguments)
    profile_text.check_unused(arguments)
    entries, sections = judge(read_events(arguments.journal), arguments.journal)
    print(f"legal: {entries} entries in {sections} sections")
    return 0
