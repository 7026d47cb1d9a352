"""`backsim-tools join`: the replies to the parts of a script."""
from __future__ import annotations

import argparse
import sys
from itertools import count
from pathlib import Path

from ..errors import FormatError, UsageError
from ..formats.replies import Reply, pairs, read_replies_of
from ..formats.script import read_script
from ..scripts.parts import told_of_budgets
from ..values import Budget, Refusal

HELP = "joins the replies to the parts of a script, byte for byte those of one session"
EXAMPLE = "  backsim-tools join parts > replies"


def add_arguments(parser: argparse.ArgumentParser) -> None:
    parser.description = (f"{HELP[0].upper()}{HELP[1:]}. FOLDER is one that split made, with the replies to 1.script in 1.replies, and "
                          "so on. Each reply must be one to its line, by what it says. Where every session was refused its files, the "
                          "one line of the refusal is written, with status 2, as of a session.")
    parser.add_argument("folder", metavar="FOLDER")


def run(arguments: argparse.Namespace) -> int:
    folder = Path(arguments.folder)
    answered: dict[int, Reply] = {}
    refusals: dict[bytes, Path] = {}
    for number in count(1):
        script, replies = folder / f"{number}.script", folder / f"{number}.replies"
        if not script.exists():
            break
        read = list(read_replies_of(replies))
        if len(read) == 1 and isinstance(read[0].answer, Refusal):
            refusals.setdefault(read[0].text, replies)
        else:
            answered.update((line.number, reply) for line, reply in pairs(read_script(script), read, replies))
    if not answered and not refusals and number == 1:
        raise UsageError(f"{folder}: there is no 1.script in this folder")
    if refusals and (answered or len(refusals) > 1):
        path = next(iter(refusals.values()))
        raise FormatError(path, 1, "this session was refused its files, and another was not, or for another reason")
    for text in refusals:
        sys.stdout.buffer.write(text)
        return 2
    for _, reply in sorted(answered.items()):
        sys.stdout.buffer.write(reply.text)
    spent = sorted(number for number, reply in answered.items() if isinstance(reply.answer, Budget))
    if spent:
        print(told_of_budgets(spent), file=sys.stderr)
    return 0
