#!/usr/bin/env python3
"""Times sessions by that program which `dist/` had at a commit, by this one, and by this one as the launcher runs it, which has the C
library ask for large pages. They take turns, each with a new journal and one worker, and the shortest time of each counts. Their
replies must be the same; else the script ends with status 1. A ratio is that of a time to the earlier program's.

- everything: each signal of examples/from_verilog at every time, with room for all cells.
- loop: the first session of bench/demand.
- workload: `--work 7`.
- stuck: one line of `stuck` after the first, of 100 on one site and as many outputs, of the 20,000 gates of bench/icarus/generate.py."""
from __future__ import annotations

import argparse
import os
import platform
import subprocess
import sys
import tempfile
import time
from pathlib import Path
from typing import NamedTuple

TOP = Path(__file__).resolve().parents[2]
sys.path[:0] = [str(TOP / "bench" / "icarus"), str(TOP / "python")]
from backsim.session.program import LARGE_PAGES  # noqa: E402
from generate import main as generate  # noqa: E402

ROOM = ("--shards", "64", "--cells", "65536")
LAYERS, WIDTH, HORIZON, LINES = 100, 200, 1_000, 100


class Session(NamedTuple):
    words: tuple[str, ...]
    script: str = ""


class Program(NamedTuple):
    path: Path
    environment: dict[str, str]


def everything() -> Session:
    stem = TOP / "examples" / "from_verilog" / "from_verilog"
    signals = [line.split(" = ")[0] for line in stem.with_suffix(".bench").read_text().splitlines() if " = " in line]
    files = (f"{stem}.bench", f"{stem}.timing", f"{stem}.stim")
    return Session((*files, "journal", *ROOM), "".join(f"wave {signal} 0 14200 150000\n" for signal in signals))


def loop() -> Session:
    stem = TOP / "bench" / "demand" / "loop"
    return Session((f"{stem}.bench", f"{stem}.timing", f"{stem}.stim", "journal"), Path(f"{stem}.script").read_text())


def stuck(folder: Path, lines: int) -> Session:
    """A wave of as many outputs, one line each, with a gate of the middle stuck."""
    generate(str(folder), WIDTH, HORIZON, 1)
    (folder / "t").write_text("default 1\n")
    site = f"g{LAYERS // 2}_{WIDTH // 2}"
    asked = (f"stuck {site} 1 g{LAYERS - 1}_{place} {HORIZON - 30} {HORIZON - 9} 500000\n" for place in range(lines))
    return Session((f"{folder}/workload.bench", f"{folder}/t", f"{folder}/workload.stim", "journal"), "".join(asked))


def timed(program: Program, session: Session, folder: Path) -> tuple[float, bytes]:
    (folder / "journal").unlink(missing_ok=True)
    begun = time.monotonic()
    ran = subprocess.run([program.path, *session.words, "--workers", "1"], cwd=folder, env={**os.environ, **program.environment},
                         input=session.script.encode(), capture_output=True)
    took = time.monotonic() - begun
    if ran.returncode:
        sys.exit(f"bench/before: {program.path} ended with status {ran.returncode}: {ran.stdout[-200:].decode()}")
    return took, ran.stdout


def compared(name: str, session: Session, programs: list[Program], turns: int, folder: Path) -> list[float]:
    """The shortest time by each program."""
    least = [float("inf")] * len(programs)
    for _ in range(turns):
        replies = []
        for number, program in enumerate(programs):
            took, reply = timed(program, session, folder)
            least[number] = min(least[number], took)
            replies.append(reply)
        if len(set(replies)) != 1:
            sys.exit(f"bench/before: {name}: the replies differ")
    return least


def row(name: str, before: float, now: float, large: float) -> None:
    times = (f"{1000 * time:.2f}" for time in (before, now, large))
    print("|", " | ".join([name, *times, f"{now / before:.3f}", f"{large / before:.3f}"]), "|", flush=True)


def main() -> None:
    parser = argparse.ArgumentParser(description=__doc__, formatter_class=argparse.RawDescriptionHelpFormatter)
    parser.add_argument("commit", help="the commit whose dist/ has the earlier program")
    parser.add_argument("--turns", type=int, default=9, help="how many turns each program takes (9)")
    given = parser.parse_args()
    with tempfile.TemporaryDirectory() as name:
        folder = Path(name)
        earlier = folder / "earlier"
        shown = subprocess.run(["git", "-C", TOP, "show", f"{given.commit}:dist/{platform.machine()}-linux/backsim"], capture_output=True)
        if shown.returncode:
            parser.error(shown.stderr.decode().strip())
        earlier.write_bytes(shown.stdout)
        earlier.chmod(0o755)
        own = subprocess.run([TOP / "tools" / "program", "backsim"], check=True, stdout=subprocess.PIPE, text=True).stdout.strip()
        programs = [Program(earlier, {}), Program(Path(own), {}), Program(Path(own), LARGE_PAGES)]
        print("| session | before, ms | now, ms | now with large pages, ms | ratio | ratio with large pages |")
        print("|---|---|---|---|---|---|", flush=True)
        row("everything", *compared("everything", everything(), programs, given.turns, folder))
        row("loop", *compared("loop", loop(), programs, given.turns, folder))
        row("workload", *compared("workload", Session(("--work", "7", "journal")), programs, given.turns, folder))
        first = compared("stuck", stuck(folder, 1), programs, given.turns, folder)
        all_lines = compared("stuck", stuck(folder, LINES), programs, given.turns, folder)
        row("stuck", *((whole - one) / (LINES - 1) for one, whole in zip(first, all_lines)))


if __name__ == "__main__":
    main()
