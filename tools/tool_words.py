"""The words of the commands of `backsim-tools`, as their parsers have them: for the manual page and for completion."""
from __future__ import annotations

import argparse
import os
import re
import sys
from typing import List, NamedTuple, Optional

import crates

sys.path.insert(0, os.path.join(crates.TOP, "python"))
from backsim import commands  # noqa: E402
from backsim.main import load, parser_of  # noqa: E402


class Word(NamedTuple):
    """An argument, or an option with its spellings: what follows it, what it may be, and what is said of it."""

    options: List[str]
    value: str
    choices: List[str]
    is_file: bool
    said: str


class Command(NamedTuple):
    """A command: its name, what it is for, its ways of use, its words, the lines of its example, and what is said below them."""

    name: str
    about: str
    usages: List[str]
    words: List[Word]
    example: List[str]
    said: str


def all_commands() -> List[Command]:
    """The commands in the order of their names."""
    return [_command(name) for name in commands.listed()]


def _command(name: str) -> Command:
    os.environ["COLUMNS"] = "10000"
    parser = parser_of(name)
    usage = parser.format_usage().partition(": ")[2]
    about = parser.description or load(name).HELP
    words = [it for it in map(_word, parser._actions) if it is not None]
    usages = [" ".join(it.split()) for it in re.split(r"\n *(?=backsim-tools )", usage)]
    example, _, said = getattr(load(name), "EXAMPLE", "").partition("\n\n")
    return Command(name, about, usages, words, example.splitlines(), said)


def _word(action: argparse.Action) -> Optional[Word]:
    if isinstance(action, argparse._HelpAction):
        return None
    choices = [str(it) for it in action.choices or ()]
    metavar = action.metavar if isinstance(action.metavar, str) else action.dest.upper()
    value = "" if action.nargs == 0 else "{" + ",".join(choices) + "}" if choices and action.metavar is None else metavar
    said = (action.help or "").replace("%%", "%")
    return Word(list(action.option_strings), value, choices, action.type is None or isinstance(action.type, type) and action.type is not int, said)
