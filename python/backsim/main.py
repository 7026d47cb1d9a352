"""`backsim-tools`: finds the command in `backsim.commands` and runs it.

A module of that folder has HELP (one line), EXAMPLE (a line or more, shown by `--help`), `add_arguments(parser)` and
`run(arguments) -> int`, the exit status. A `_` of its name is a `-` of the command. Statuses: 0 all is well, 1 an answer that is no,
2 bad use or a bad file, 4 where standard output could not be written, 141 where its reader went away, 128 and the number of the signal
that ended the command (130 of Ctrl-C)."""
from __future__ import annotations

import argparse
import importlib
import signal
import sys
from collections.abc import Callable, Sequence
from typing import IO, TYPE_CHECKING, NoReturn, Protocol, cast

from . import commands
from .command_line.streams import leave_output, prepare
from .errors import BacksimError, WordsError, printable, reason_of

if TYPE_CHECKING:
    from types import FrameType

UNWRITTEN = 4
ENDED_BY = 128
INTERRUPTED = ENDED_BY + signal.SIGINT
READER_GONE = 141
# these end a command as Ctrl-C does: what it has started is ended, and what it has begun to write goes
ENDINGS = (signal.SIGINT, signal.SIGTERM, signal.SIGHUP)


class Command(Protocol):
    """The module of a command."""

    HELP: str

    def add_arguments(self, parser: argparse.ArgumentParser) -> None: ...

    def run(self, arguments: argparse.Namespace) -> int: ...


class Parser(argparse.ArgumentParser):
    """A parser that says what is wrong in one line, with status 2."""

    def error(self, message: str) -> NoReturn:
        self.exit(2, f"{self.prog}: {printable(message)}; see {self.prog} --help\n")

    def _print_message(self, message: str, file: IO[str] | None = None) -> None:
        """Also where it can't be written, which argparse passes over."""
        if message:
            (file or sys.stderr).write(message)


def usage() -> str:
    """The list of commands, a line each."""
    names = commands.listed()
    width = max(map(len, names), default=0)
    lines = [f"  {name:{width}}  {load(name).HELP}" for name in names]
    return "\n".join(["usage: backsim-tools COMMAND ...", "", "commands:", *lines, "",
                      "backsim-tools COMMAND --help says what a command takes, with an example.",
                      "backsim-tools --version tells the versions of package and program."])


def load(name: str) -> Command:
    """The module of a command."""
    return cast(Command, importlib.import_module(f"{commands.__name__}.{name.replace('-', '_')}"))


def parser_of(name: str) -> Parser:
    """The parser of a command's words."""
    module = load(name)
    example = getattr(module, "EXAMPLE", "")
    parser = Parser(f"backsim-tools {name}", description=module.HELP, allow_abbrev=False,
                    formatter_class=argparse.RawDescriptionHelpFormatter, epilog=f"example:\n{example}" if example else None)
    module.add_arguments(parser)
    return parser


def main(words: Sequence[str] | None = None) -> int:
    """Runs the words of a command, without the program's name; gives its exit status."""
    given = sys.argv[1:] if words is None else list(words)
    try:
        return _written(lambda: _served(given))
    except BacksimError as error:
        command = f"backsim-tools {given[0]}: " if isinstance(error, WordsError) else ""
        print(f"{command}{error}", file=sys.stderr)
        return error.status
    except BrokenPipeError:
        leave_output()
        return READER_GONE
    except KeyboardInterrupt as ended:
        return ENDED_BY + int(ended.args[0]) if ended.args else INTERRUPTED
    except OSError as error:
        return _failed(error)


def _served(words: Sequence[str]) -> int:
    if words[:1] in (["--help"], ["-h"]):
        print(usage())
        return 0
    if words[:1] == ["--version"]:
        from .version import told
        for line in told():
            print(line)
        return 0
    if not words or words[0] not in commands.listed():
        what = f"there is no command {printable(words[0])}" if words else "a command is missing"
        print(f"backsim-tools: {what}; see backsim-tools --help", file=sys.stderr)
        return 2
    return load(words[0]).run(parser_of(words[0]).parse_args(words[1:]))


def _written(serve: Callable[[], int]) -> int:
    """The status, once standard output has taken all; also what was written before an error or by `--help`."""
    try:
        status = serve()
    except (SystemExit, BacksimError):
        sys.stdout.flush()
        raise
    sys.stdout.flush()
    return status


def _failed(error: OSError) -> int:
    """Says in one line what the system refused; without a file's name that is standard output."""
    if error.filename is not None:
        print(printable(f"{error.filename}: {reason_of(error)}"), file=sys.stderr)
        return 2
    leave_output()
    print(f"backsim-tools: standard output: {reason_of(error)}", file=sys.stderr)
    return UNWRITTEN


def _ended(number: int, frame: FrameType | None) -> NoReturn:
    """The first of these signals ends the command. Those after it are passed over, so that what it has started is ended whole."""
    for each in ENDINGS:
        signal.signal(each, signal.SIG_IGN)
    raise KeyboardInterrupt(number)


def entry() -> NoReturn:
    """What the script `backsim-tools` runs."""
    prepare()
    for number in ENDINGS:
        if signal.getsignal(number) in (signal.SIG_DFL, signal.default_int_handler):
            signal.signal(number, _ended)
    sys.exit(main())
