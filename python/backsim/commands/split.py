"""`backsim-tools split`: a script in parts."""
from __future__ import annotations

import argparse

from ..command_line.arguments import count_of
from ..command_line.outputs import whole_folder
from ..formats.text import opened
from ..scripts.parts import check_divisible, divide, read_lines, text_of, with_every_go

HELP = "divides a script into parts that different sessions answer"
EXAMPLE = """\
  backsim-tools split questions.script 4 parts
  backsim chip.bench chip.timing chip.stim parts/1.journal < parts/1.script > parts/1.replies   # and so on
  backsim-tools join parts > replies"""
_MOST_PARTS = 100_000


def add_arguments(parser: argparse.ArgumentParser) -> None:
    parser.description = (f"{HELP[0].upper()}{HELP[1:]}. FOLDER is made, with the scripts 1.script, 2.script and so on. A line that is "
                          "another part's is blank there, so each question keeps its number; go lines stand in every part, since they "
                          "write nothing. A stats, trim or vcd line is refused: its reply depends on the whole session.")
    parser.add_argument("script", metavar="SCRIPT")
    parser.add_argument("parts", metavar="PARTS", type=count_of(1, _MOST_PARTS))
    parser.add_argument("folder", metavar="FOLDER")


def run(arguments: argparse.Namespace) -> int:
    with opened(arguments.script) as stream:
        lines = read_lines(stream, arguments.script)
    check_divisible(lines, arguments.script)
    with whole_folder(arguments.folder) as folder:
        for number, part in enumerate(divide(lines, arguments.parts), 1):
            with open(folder / f"{number}.script", "wb") as stream:
                stream.writelines(text_of(with_every_go(part, lines)))
    return 0
