#!/usr/bin/env python3
"""Refuses the program one allocation after another, and looks at how it ends and at what it has written by then.

    bench/refused_memory/run.py [--first N] [--last N] [--most N] [--rest] [--jobs N] [--every | --session NAME ..]

Sessions of tests/sessions with evictions, budgets, first times, explanations, stuck signals and dumps are run by the program of this
repository with one worker, and one shard where they name no other number, so that each has one text of its replies, its journal and its
dumps. refuse.c stands before the C library's allocator: it counts the program's allocations (malloc and realloc, which makes a block
grow), and refuses one. First the session is run as it is: it must write what its row says, and that is the whole text. Then it is run
anew for each allocation, which is refused; with `--rest` those that follow it are refused too. Of a session with more than `--most`
allocations each so many-th is tried. Each run must end with status 6, and
then the replies, the journal and each dump are a prefix of the whole text; or with status 0, and then they are all of it. What of the
journal ends with a whole section must be read as a legal journal, each section the one of the whole run.

A line for each session tells what was found; each run that is not as it must be has a line of its own, and the status is then 1. Bad use
has a line and status 2."""
from __future__ import annotations

import argparse
import io
import os
import re
import shutil
import subprocess
import sys
import tempfile
import time
from concurrent.futures import ThreadPoolExecutor
from dataclasses import dataclass
from typing import NoReturn

TOP = os.path.dirname(os.path.dirname(os.path.dirname(os.path.abspath(__file__))))
sys.path[:0] = [os.path.join(TOP, "tools"), os.path.join(TOP, "python")]
from backsim.errors import FormatError  # noqa: E402
from backsim.formats.journal import collect, events_of  # noqa: E402
from backsim.journal.legality import judge  # noqa: E402
from session_rows import FILES, all_sessions, dumps_of  # noqa: E402

SESSIONS = (
    "each kind of line in one session, over a memo of two cells",
    "a memo with room for one cell",
    "a budget that is spent, and its cause in the journal",
    "first times one after another, each from where the one before it ended",
    "why: three cells that the memo has, told one after another",
    "stuck: a budget that does not suffice in the session's memo",
    "three dumps at most, each under a name of its own",
)
OUT_OF_MEMORY = "backsim: out of memory\n"


class Words(argparse.ArgumentParser):
    """Bad words have one line, and status 2."""

    def error(self, message: str) -> NoReturn:
        sys.stderr.write(f"{self.prog}: {message}\n")
        sys.exit(2)


@dataclass(frozen=True)
class Run:
    """How a run ended, what it wrote to standard error, its replies, its journal and its dumps by name, and how many allocations it asked
    for."""

    status: int
    said: str
    texts: dict[str, str]
    allocations: int

    def faults(self, whole: dict[str, str]) -> list[str]:
        """What is not as it must be where an allocation may have been refused; the whole texts are those of the run without."""
        found = []
        if self.status == 0:
            found += [f"status 0, and {name} is not the whole text" for name, text in whole.items() if self.texts[name] != text]
        elif self.status == 6:
            found += [f"status 6, and {name} is no prefix of the whole text" for name, text in whole.items() if not text.startswith(self.texts[name])]
        else:
            found.append(f"it ends with status {self.status}")
        if self.said != (OUT_OF_MEMORY if self.status == 6 else ""):
            found.append(f"status {self.status}, and standard error is {self.said!r}")
        return found + self.journal_faults(whole["journal"])

    def journal_faults(self, whole: str) -> list[str]:
        """What is wrong with the sections of the journal that are whole."""
        text = self.texts["journal"]
        ends = [match.end() for match in re.finditer(r"^end\n", text, re.M)]
        if not ends:
            return []
        try:
            judge(events_of(lines_of(text[:ends[-1]]), "journal"), "journal")
            sections = collect(events_of(lines_of(text[:ends[-1]]), "journal")).sections
        except FormatError as error:
            return [f"the whole sections of the journal are none: {error}"]
        expected = collect(events_of(lines_of(whole), "journal")).sections[:len(sections)]
        return [] if sections == expected else ["a section of the journal is not the one of the whole run"]


def lines_of(text: str) -> io.BytesIO:
    return io.BytesIO(text.encode("latin-1"))


@dataclass(frozen=True)
class Session:
    name: str
    row: dict[str, str]
    program: str
    refuser: str

    def words(self) -> list[str]:
        """Those of the row, with one worker, and one shard where it does not name their number."""
        words = re.sub(r"--workers\s+\S+", "", self.row.get("words", "")).split()
        return [*words, "--workers", "1", *([] if "--shards" in words else ["--shards", "1"])]

    def run(self, refused: str = "") -> Run:
        """Runs the session in a folder of its own, with this allocation refused."""
        with tempfile.TemporaryDirectory(prefix="refused_memory_") as folder:
            for file in FILES:
                write(os.path.join(folder, file), self.row.get(file, ""))
            environment = {"LD_PRELOAD": self.refuser, "REFUSED": refused, "ALLOCATIONS": os.path.join(folder, "allocations")}
            ran = subprocess.run([self.program, *FILES, "journal", *self.words()], cwd=folder, env=environment,
                                 input=self.row.get("script", "").encode(), capture_output=True)
            texts = {name: read(os.path.join(folder, name)) for name in ("journal", *dumps_of(self.row))}
            allocations = read(os.path.join(folder, "allocations"))
        texts["replies"] = ran.stdout.decode("latin-1")
        return Run(ran.returncode, ran.stderr.decode("latin-1"), texts, int(allocations or 0))

    def whole(self) -> Run:
        """What the session writes where nothing is refused. All that its row says must be written then."""
        run = self.run()
        expected = {"replies": self.row.get("replies", ""), **dumps_of(self.row)}
        if "journal" in self.row:
            expected["journal"] = self.row["journal"]
        wrong = [name for name, text in expected.items() if run.texts[name] != text]
        if run.status or wrong or not run.allocations:
            sys.exit(f"refused_memory: {self.name}: with nothing refused, status {run.status}, {run.allocations} allocations, and not as its "
                     f"row says: {', '.join(wrong) or 'nothing'}")
        return run


def write(path: str, text: str) -> None:
    with open(path, "wb") as file:
        file.write(text.encode())


def read(path: str) -> str:
    """What stands in a file, as text; nothing where there is none."""
    if not os.path.exists(path):
        return ""
    with open(path, "rb") as file:
        return file.read().decode("latin-1")


def try_session(session: Session, chosen: argparse.Namespace) -> bool:
    """Tries the allocations of a session, and tells what was found. Whether all is as it must be."""
    began = time.monotonic()
    whole = session.whole()
    last = min(chosen.last, whole.allocations)
    numbers = range(chosen.first, last + 1, max(1, -(-(last + 1 - chosen.first) // chosen.most)))
    ended = {0: 0, 6: 0}
    wrong = 0
    ends: set[tuple[int, ...]] = set()
    with ThreadPoolExecutor(chosen.jobs) as pool:
        for number, run in zip(numbers, pool.map(lambda it: session.run(f"{it}.." if chosen.rest else f"{it}"), numbers)):
            faults = run.faults(whole.texts)
            for fault in faults:
                print(f"{session.name}: allocation {number} of {whole.allocations}: {fault}", flush=True)
            wrong += bool(faults)
            if run.status in ended:
                ended[run.status] += 1
            ends.add(tuple(len(text) for text in run.texts.values()))
    print(f"{session.name}: {len(numbers)} of {whole.allocations} allocations refused, {ended[6]} runs end with 6, {ended[0]} with 0, "
          f"{wrong} are wrong; {len(ends)} different ends of what is written; {time.monotonic() - began:.1f} s", flush=True)
    return not wrong


def count(text: str) -> int:
    """A whole number from 1 on."""
    if not text.isascii() or not text.isdigit() or int(text) == 0:
        raise argparse.ArgumentTypeError(f"{text} is not a whole number from 1 on")
    return int(text)


def parse(words: list[str]) -> argparse.Namespace:
    parser = Words(prog="refused_memory", description="Refuses the program one allocation after another.", allow_abbrev=False)
    parser.add_argument("--first", metavar="N", type=count, default=1, help="the first allocation to refuse (1)")
    parser.add_argument("--last", metavar="N", type=count, default=10 ** 9, help="the last one (that of the whole run)")
    parser.add_argument("--most", metavar="N", type=count, default=1000, help="at most so many of each session, spread over all (1000)")
    parser.add_argument("--rest", action="store_true", help="refuse those that follow it too")
    parser.add_argument("--jobs", metavar="N", type=count, default=1, help="how many runs stand beside one another (1)")
    which = parser.add_mutually_exclusive_group()
    which.add_argument("--every", action="store_true", help="every session of tests/sessions that ends with status 0")
    which.add_argument("--session", metavar="NAME", action="append", help="a session of tests/sessions in place of those that are named here; may come again")
    chosen = parser.parse_args(words)
    if chosen.first > chosen.last:
        parser.error("--first is above --last")
    return chosen


def main(words: list[str]) -> int:
    chosen = parse(words)
    rows = dict(all_sessions(TOP))
    every = [name for name, row in rows.items() if row.get("status", "0").strip() == "0"]
    names = every if chosen.every else chosen.session or list(SESSIONS)
    for name in names:
        if name not in every:
            sys.stderr.write(f"refused_memory: no session of tests/sessions has the name {name} and status 0\n")
            return 2
    if shutil.which("cc") is None:
        sys.stderr.write("refused_memory: there is no command cc on PATH\n")
        return 2
    program = subprocess.run([os.path.join(TOP, "tools", "program"), "backsim"], check=True, capture_output=True, text=True).stdout.strip()
    with tempfile.TemporaryDirectory(prefix="refused_memory_") as folder:
        refuser = os.path.join(folder, "refuse.so")
        subprocess.run(["cc", "-O2", "-Wall", "-shared", "-fPIC", "-o", refuser, os.path.join(TOP, "bench", "refused_memory", "refuse.c")], check=True)
        right = [try_session(Session(name, rows[name], program, refuser), chosen) for name in names]
    return 0 if all(right) else 1


if __name__ == "__main__":
    sys.exit(main(sys.argv[1:]))
