#!/usr/bin/env python3
"""Times `backsim-tools faults` on circuits of `circuits.py` with random patterns.

    bench/faults/run.py [multiplier] [combinational] [large] [filter] [sequential]

Runs all five where none is named, each once, with a process for each processor. A line of the table has the gates, the classes of faults,
the patterns, how many classes are shown, and how many of these the program confirms within its budget, the seconds of the whole command,
the processor seconds of all its processes, and the most memory that they had together, sampled ten times a second, pages that they
share counted once. Ends with status 1 where the command fails."""
from __future__ import annotations

import os
import random
import re
import subprocess
import sys
import tempfile
import threading
import time
from collections.abc import Callable
from pathlib import Path

sys.path.insert(0, str(Path(__file__).parent))
from circuits import PERIOD, SEED, drawn, filter_of, multiplier, write  # noqa: E402

TOP = Path(__file__).resolve().parents[2]
# for each circuit its lines, the patterns, and the time from one to the next
CASES: dict[str, tuple[Callable[[], list[str]], int, int]] = {
    "multiplier": (lambda: multiplier(16), 1000, 100),
    "combinational": (lambda: drawn(3500, 200, 94, 0), 1000, 60),
    "large": (lambda: drawn(20000, 300, 200, 0), 256, 300),
    "filter": (lambda: filter_of(4, 12), 500, PERIOD),
    "sequential": (lambda: drawn(3000, 60, 60, 200), 500, PERIOD),
}


class Memory(threading.Thread):
    """Samples the memory of a process and those that it started."""

    def __init__(self, process: int) -> None:
        super().__init__(daemon=True)
        self.process, self.most = process, 0
        self.ended = threading.Event()

    def run(self) -> None:
        while not self.ended.wait(0.1):
            self.most = max(self.most, sum(map(own_kilobytes, descendants(self.process))))


def descendants(process: int) -> list[int]:
    found = [process]
    for one in found:
        for path in Path(f"/proc/{one}/task").glob("*/children"):
            try:
                found += map(int, path.read_text().split())
            except OSError:
                pass
    return found


def own_kilobytes(process: int) -> int:
    try:
        found = re.search(r"^Pss: *([0-9]+) kB", Path(f"/proc/{process}/smaps_rollup").read_text(), re.M)
    except OSError:
        return 0
    return int(found[1]) if found else 0


def measure(name: str, folder: Path) -> str:
    made, patterns, period = CASES[name]
    lines = made()
    write(folder, lines)
    inputs = sum(line.startswith("INPUT") for line in lines)
    draw = random.Random(SEED)
    (folder / "patterns").write_text("".join("".join(draw.choice("01") for _ in range(inputs)) + "\n" for _ in range(patterns)))
    words: list[str | Path] = [TOP / "backsim-tools", "faults", *(folder / file for file in ("netlist.bench", "timing", "patterns")), "--period", str(period)]
    before, begun = os.times(), time.monotonic()
    with subprocess.Popen(words, stdout=subprocess.PIPE, text=True) as running:
        memory = Memory(running.pid)
        memory.start()
        out = running.stdout.read() if running.stdout else ""
    taken, after = time.monotonic() - begun, os.times()
    memory.ended.set()
    memory.join()
    if running.returncode not in (0, 1):
        sys.exit(f"{name}: status {running.returncode}")
    shown = re.search(r"^(?:collapsed: )?shown ([0-9]+) of ([0-9]+) faults", out, re.M)
    confirmed = re.search(r"^confirmed by the program: ([0-9]+) of ([0-9]+)", out, re.M)
    if not shown or not confirmed:
        sys.exit(f"{name}: there is no table")
    processors = after.children_user + after.children_system - before.children_user - before.children_system
    gates = sum(" = " in line for line in lines)
    return (f"| {name} | {gates} | {shown[2]} | {patterns} | {shown[1]} | {confirmed[1]} | {taken:.1f} s | {processors:.1f} s | {memory.most / 1024:.0f} MB |")


def main(names: list[str]) -> None:
    print("| circuit | gates | classes | patterns | shown | confirmed | time | processor time | memory |\n|---|---|---|---|---|---|---|---|---|")
    for name in names or CASES:
        with tempfile.TemporaryDirectory() as folder:
            print(measure(name, Path(folder)), flush=True)


if __name__ == "__main__":
    if not set(sys.argv[1:]) <= set(CASES):
        sys.exit(__doc__)
    main(sys.argv[1:])
